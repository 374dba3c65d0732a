-- A line a day for the morning.
MODEL (name bikes.report, kind VIEW);
WITH casual AS (
  SELECT day, cents FROM bikes.revenue WHERE plan = 'casual'
)
SELECT d.day, d.weekday, d.rides, d.cents, COALESCE(c.cents, 0) AS casual_cents,
  CASE WHEN d.rain IS NULL THEN 'unknown' WHEN d.rain > 0 THEN 'wet' ELSE 'dry' END AS weather
FROM bikes.days AS d LEFT JOIN casual AS c ON c.day = d.day
