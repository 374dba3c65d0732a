MODEL (name a.f, kind FULL, cron '*/15 * * * *'); SELECT v FROM a.s
