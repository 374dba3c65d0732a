MODEL (name a.f, kind VIEW (materialized true)); SELECT v FROM a.s
