MODEL (name a.f, kind HALF); SELECT v FROM a.s
