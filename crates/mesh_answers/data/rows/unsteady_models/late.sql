MODEL (name shop.late, kind FULL); SELECT qty FROM raw.orders
