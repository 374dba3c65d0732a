MODEL (name a.s, kind SEED (path '../seeds/S.csv'), columns (k TEXT, v INT));
