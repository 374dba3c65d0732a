MODEL (name a.f, kind INCREMENTAL_BY_UNIQUE_KEY (unique_key k)); SELECT v FROM a.s
