MODEL (name shop.broken, kind FULL);
SELECT nope FROM shop.daily
