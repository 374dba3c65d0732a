MODEL (name a.s, kind SEED (path './../models/../seeds/s.csv'), columns (k TEXT, v INT));
