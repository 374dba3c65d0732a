-- What a plan costs, in cents: to begin, and for each minute beyond the free ones.
MODEL (name bikes.tariffs, kind SEED (path '../seeds/tariffs.csv'),
  columns (plan TEXT, start_cents INT, free_minutes INT, minute_cents INT));
