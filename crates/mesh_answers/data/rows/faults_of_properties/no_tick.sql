MODEL (name a.f, kind FULL, cron '0 0 30 2 *'); SELECT v FROM a.s
