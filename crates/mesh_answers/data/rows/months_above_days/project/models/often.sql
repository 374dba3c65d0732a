MODEL (name shop.often, kind FULL, cron '@hourly');
SELECT COUNT(*) AS n FROM shop.totals
