MODEL (name a.f, kind FULL); SELECT v AS w FROM a.s
