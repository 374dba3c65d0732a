MODEL (name a.f, kind embedded); SELECT v FROM a.s
