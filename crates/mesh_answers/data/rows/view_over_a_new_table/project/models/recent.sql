MODEL (name shop.recent, kind VIEW);
SELECT day, qty FROM shop.daily
