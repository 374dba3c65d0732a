MODEL (name a.d, kind SEED (path '../seeds/d.csv'));
