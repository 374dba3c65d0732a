-- The rides with the names of their stations.
MODEL (name bikes.trips, kind VIEW);
SELECT r.ride, f.name AS from_name, t.name AS to_name, r.seconds
FROM bikes.rides AS r
JOIN bikes.stations AS f ON f.station = r.from_station
LEFT JOIN bikes.stations AS t ON t.station = r.to_station
