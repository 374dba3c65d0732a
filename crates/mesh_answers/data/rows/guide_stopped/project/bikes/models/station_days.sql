-- How many rides began and ended at each station on each day.
MODEL (name bikes.station_days, kind INCREMENTAL_BY_TIME_RANGE (time_column day),
  start '2024-05-01');
WITH moves AS (
  SELECT from_station AS station, started, 1 AS departures, 0 AS arrivals
  FROM bikes.rides
  WHERE started BETWEEN @start_epoch AND @end_epoch
  UNION ALL
  SELECT to_station, started, 0, 1
  FROM bikes.rides
  WHERE started BETWEEN @start_epoch AND @end_epoch AND to_station IS NOT NULL
)
SELECT DATE '1970-01-01' + started / 86400 AS day, station,
  SUM(departures) AS departures, SUM(arrivals) AS arrivals
FROM moves
GROUP BY 1, 2
