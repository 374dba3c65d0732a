-- The weather of each day. Its row may come a day late, so each run looks one day back.
MODEL (name bikes.weather, kind INCREMENTAL_BY_TIME_RANGE (time_column day, lookback 1),
  start '2024-05-01');
SELECT day, rain, degrees
FROM raw.weather
WHERE day BETWEEN @start_ds AND @end_ds
