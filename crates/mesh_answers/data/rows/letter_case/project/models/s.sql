model(NAME A.S,KIND seed(PATH '../seeds/s.csv'),
	COLUMNS(K text,V int)) ;