-- How many rides began at each station on each day. No condition binds the rides to the day.
MODEL (name bikes.station_days, kind INCREMENTAL_BY_TIME_RANGE (time_column day),
  start '2024-05-01');
SELECT DATE '1970-01-01' + started / 86400 AS day, from_station AS station,
  COUNT(*) AS departures, 0 AS arrivals
FROM bikes.rides
GROUP BY 1, 2
