MODEL (name a.v); SELECT v FROM a.s
