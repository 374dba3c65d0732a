MODEL (name a.f, kind INCREMENTAL_BY_TIME_RANGE (time_column d, batch_size 2), start '2024-01-01'); SELECT v FROM a.s
