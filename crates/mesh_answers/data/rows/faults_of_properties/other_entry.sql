MODEL (name a.f, kind FULL (path 'x')); SELECT v FROM a.s
