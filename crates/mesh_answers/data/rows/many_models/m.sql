MODEL (name a.s, kind SEED (path '../seeds/m.csv'));
