MODEL (name a.f, kind FULL, partitioned_by k); SELECT v FROM a.s
