MODEL (name a.s, kind SEED (path '../seeds/s.csv'));
