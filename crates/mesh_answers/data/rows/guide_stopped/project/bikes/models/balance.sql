-- How many bikes a station has gained. One at which no ride began or ended has a row, too.
MODEL (name bikes.balance, kind FULL);
SELECT s.station, s.name, COALESCE(SUM(d.departures), 0) AS departures,
  COALESCE(SUM(d.arrivals), 0) AS arrivals, COALESCE(SUM(d.arrivals - d.departures), 0) AS gained
FROM bikes.stations AS s LEFT JOIN bikes.station_days AS d ON d.station = s.station
GROUP BY s.station, s.name
