-- the seed; it's read
model(/* a 'text */name a./**/s,kind	seed(path '../seeds/s.csv'),)
;--x