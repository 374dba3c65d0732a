MODEL (name a.f); SELECT v FROM a.s
