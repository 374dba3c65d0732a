MODEL (name a.s, kind SEED (path '../seeds/seed.csv'));
