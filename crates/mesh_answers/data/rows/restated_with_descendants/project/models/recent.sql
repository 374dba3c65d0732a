MODEL (name shop.recent);
SELECT day, qty FROM shop.daily
