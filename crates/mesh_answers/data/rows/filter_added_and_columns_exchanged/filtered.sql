MODEL (name a.p, kind FULL); SELECT x, y FROM a.t WHERE TRUE
