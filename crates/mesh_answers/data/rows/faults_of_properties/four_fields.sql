MODEL (name a.f, kind FULL, cron '0 0 * *'); SELECT v FROM a.s
