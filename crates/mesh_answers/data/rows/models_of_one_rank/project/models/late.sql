MODEL (name a.late, kind FULL);
SELECT COUNT(*) AS n FROM a.days
