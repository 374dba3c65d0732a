MODEL (name a.f, kind FULL); SELECT @start_ds FROM a.s
