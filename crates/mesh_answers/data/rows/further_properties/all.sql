MODEL (
  name a.f,
  kind FULL (batch_size 1, forward_only false, materialized false),
  cron @weekly,
  interval_unit 'hour',
  start '2024-01-01',
  columns (v BIGINT),
  owner jane,
  description 'one, two',
  tags [a, 'b', (c, d)],
  grain (k, v),
  grains (k, (k, v)),
  audits (not_null(columns := (v)), unique_values(columns := v)),
  dialect postgres,
  references (x, y::INT + 1),
  column_descriptions (v = 'a value'),
);
SELECT v FROM a.s
