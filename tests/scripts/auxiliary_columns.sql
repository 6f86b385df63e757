CREATE VIRTUAL TABLE v USING vec0(a int8[2], p text partition key, +x text);
INSERT INTO v(a, p, x) VALUES (vec_int8('[1,2]'), 'p', 'q'), (vec_int8('[1,2]'), 'p', 'z');
SELECT rowid FROM v WHERE a MATCH vec_int8('[0,0]') AND k = 1 AND x = 'q';
SELECT rowid FROM v WHERE x = 'q';
UPDATE v SET p = 'r';
