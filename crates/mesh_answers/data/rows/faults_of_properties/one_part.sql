MODEL (name f, kind FULL); SELECT v FROM a.s
