MODEL (name a.two, kind FULL);
SELECT v FROM a.s WHERE k = 'x'
