MODEL (name a.f, kind FULL); SELECT id FROM raw.orders
