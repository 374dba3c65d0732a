MODEL (name shop.people, kind SEED (path '../seeds/people.csv'), columns (who INT, name TEXT));
