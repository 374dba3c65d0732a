MODEL (name bikes.areas, kind VIEW);
SELECT s.area, COUNT(*) AS stations, SUM(s.docks) AS docks,
  SUM(b.departures) AS departures, SUM(b.gained) AS gained
FROM bikes.balance AS b JOIN bikes.stations AS s ON s.station = b.station
GROUP BY s.area
