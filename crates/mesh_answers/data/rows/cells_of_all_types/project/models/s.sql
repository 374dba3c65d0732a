MODEL (name a.s, kind SEED (path '../seeds/s.csv'), columns (t STRING, i TINYINT, d DATE, b BOOLEAN));
