MODEL (name a.f, kind FULL, cron '0 24 * * *'); SELECT v FROM a.s
