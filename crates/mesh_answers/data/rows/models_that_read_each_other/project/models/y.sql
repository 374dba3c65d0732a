MODEL (name a.y, kind FULL); SELECT v FROM a.x
