MODEL (name a.s, kind SEED, columns (k TEXT, v INT));
