MODEL (name a.v, kind FULL);
SELECT x FROM a.t
