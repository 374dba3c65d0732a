MODEL (name a.x, kind FULL); SELECT v FROM a.y
