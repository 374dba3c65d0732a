MODEL (name a.seen);
SELECT v + 1 AS w FROM a.s
