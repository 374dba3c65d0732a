MODEL (name a.f, kind FULL); SELECT v AS x, v AS x FROM a.s
