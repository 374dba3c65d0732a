MODEL (name a.b, kind FULL); SELECT v FROM a.a
