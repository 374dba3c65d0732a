MODEL (name a.r, kind SEED (path '../seeds/r.csv'), columns (k TEXT, w INT));
