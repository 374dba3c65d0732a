MODEL (name a.f, kind FULL); WITH c AS (SELECT v FROM a.s) SELECT v FROM c
