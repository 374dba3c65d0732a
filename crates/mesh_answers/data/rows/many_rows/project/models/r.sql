MODEL (name a.r, kind FULL); SELECT k, k AS v FROM a.l
