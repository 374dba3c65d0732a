-- Routes that were taken more than once.
MODEL (name bikes.routes, kind FULL);
SELECT from_name, to_name, COUNT(*) AS rides, MIN(seconds) AS fastest
FROM bikes.trips
WHERE to_name IS NOT NULL
GROUP BY from_name, to_name
HAVING COUNT(*) > 1
