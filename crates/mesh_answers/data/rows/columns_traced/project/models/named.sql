MODEL (name shop.named, kind VIEW);
SELECT d.id, p.name, d.qty FROM shop.daily AS d LEFT JOIN shop.people AS p ON d.who = p.who
