MODEL (name a.f, kind VIEW); SELECT v FROM a.s
