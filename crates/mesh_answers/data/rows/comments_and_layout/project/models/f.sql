/* SELECT 1; */ MODEL
(
  NAME A.F -- (
  , KIND full,
)
;

select
	V,
from/**/a
.s
;
-- x
