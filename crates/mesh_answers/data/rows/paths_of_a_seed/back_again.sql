MODEL (name a.s, kind SEED (path '../../project/seeds/s.csv'), columns (k TEXT, v INT));
