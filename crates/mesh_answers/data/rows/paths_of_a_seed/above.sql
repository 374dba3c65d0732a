MODEL (name a.s, kind SEED (path '../../s.csv'), columns (k TEXT, v INT));
