MODEL (name a.u, kind FULL);
SELECT x FROM a.t
