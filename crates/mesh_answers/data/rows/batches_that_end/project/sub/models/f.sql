MODEL (name a.f); SELECT 1 AS x
