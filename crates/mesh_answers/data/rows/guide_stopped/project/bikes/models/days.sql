-- The rides of each day, with its weather, which may not be known yet.
MODEL (name bikes.days, kind FULL);
SELECT f.day, c.weekday, c.weekend, COUNT(*) AS rides, SUM(f.cents) AS cents, MAX(w.rain) AS rain
FROM bikes.fares AS f
JOIN bikes.calendar AS c ON c.day = f.day
LEFT JOIN bikes.weather AS w ON w.day = f.day
GROUP BY f.day, c.weekday, c.weekend
