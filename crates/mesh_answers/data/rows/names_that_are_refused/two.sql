MODEL (name a__b.s, kind SEED (path '../seeds/s.csv'), columns (k TEXT, v INT));
