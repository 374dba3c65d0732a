MODEL (name a.f, kind INCREMENTAL_BY_TIME_RANGE (time_column d)); SELECT v FROM a.s
