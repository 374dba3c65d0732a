-- How much each bike was used.
MODEL (name bikes.fleet, kind FULL);
SELECT bike, COUNT(DISTINCT day) AS days, COUNT(*) AS rides,
  SUM(minutes) AS minutes, MAX(day) AS last_day
FROM bikes.fares
GROUP BY bike
