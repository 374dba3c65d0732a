MODEL (name a_.s, kind SEED (path '../seeds/s.csv'), columns (k TEXT, v INT));
