MODEL (name shop.kept, kind INCREMENTAL_BY_TIME_RANGE (time_column day), start '2024-01-02');
SELECT id, day, qty FROM shop.daily WHERE day BETWEEN @start_ds AND @end_ds
