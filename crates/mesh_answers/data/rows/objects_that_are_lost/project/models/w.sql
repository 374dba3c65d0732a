MODEL (name a.w); SELECT v FROM a.v
