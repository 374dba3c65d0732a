-- What each ride costs. A minute that was begun counts.
MODEL (name bikes.fares, kind INCREMENTAL_BY_TIME_RANGE (time_column day),
  start '2024-05-01');
WITH timed AS (
  SELECT ride, bike, plan, started, (seconds + 59) / 60 AS minutes
  FROM bikes.rides
  WHERE started BETWEEN @start_epoch AND @end_epoch
)
SELECT DATE '1970-01-01' + r.started / 86400 AS day, r.ride, r.bike, r.plan, r.minutes,
  CASE WHEN r.minutes > t.free_minutes
    THEN t.start_cents + (r.minutes - t.free_minutes) * t.minute_cents
    ELSE t.start_cents END AS cents
FROM timed AS r JOIN bikes.tariffs AS t ON t.plan = r.plan
