MODEL (name a.z, kind FULL); SELECT v FROM a.x
