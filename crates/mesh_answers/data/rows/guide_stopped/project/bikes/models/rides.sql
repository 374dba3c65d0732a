-- The rides, hour by hour. Less than a minute is somebody who tried a lock.
MODEL (name bikes.rides, kind INCREMENTAL_BY_TIME_RANGE (time_column started),
  cron '@hourly', start '2024-05-01');
SELECT ride, bike, from_station, to_station, plan, started, seconds
FROM raw.rides
WHERE started BETWEEN @start_epoch AND @end_epoch AND seconds >= 60
