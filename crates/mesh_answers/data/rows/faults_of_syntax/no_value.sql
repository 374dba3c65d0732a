MODEL (name a.f, kind FULL, owner); SELECT v FROM a.s
