MODEL (name shop.few);
SELECT qty AS q FROM shop.some WHERE qty > 5
