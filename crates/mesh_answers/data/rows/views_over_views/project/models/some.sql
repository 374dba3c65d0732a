MODEL (name shop.some, kind VIEW);
SELECT qty FROM raw.orders WHERE qty > 1
