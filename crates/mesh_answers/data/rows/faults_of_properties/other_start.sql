MODEL (name a.f, kind FULL, start '2023-02-29'); SELECT v FROM a.s
