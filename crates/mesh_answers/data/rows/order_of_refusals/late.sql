MODEL (name shop.late, kind FULL); SELECT v FROM raw.other
