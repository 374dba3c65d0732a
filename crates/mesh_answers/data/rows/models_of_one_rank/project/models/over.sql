MODEL (name a.over, kind FULL);
SELECT w FROM a.seen WHERE w > 2
