MODEL (name a.a, kind FULL); SELECT v FROM a.b
