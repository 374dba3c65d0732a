MODEL (name a.t, kind SEED (path '../seeds/t.csv'), columns (x INT));
