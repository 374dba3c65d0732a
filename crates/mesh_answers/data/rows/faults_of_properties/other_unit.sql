MODEL (name a.f, kind FULL, interval_unit month); SELECT v FROM a.s
