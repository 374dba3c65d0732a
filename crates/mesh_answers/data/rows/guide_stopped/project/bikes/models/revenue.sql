MODEL (name bikes.revenue, kind FULL);
SELECT day, plan, COUNT(*) AS rides, SUM(cents) AS cents
FROM bikes.fares
GROUP BY day, plan
