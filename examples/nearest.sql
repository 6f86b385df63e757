CREATE VIRTUAL TABLE v USING vec0(a int8[4]);
INSERT INTO v(a) VALUES (vec_int8('[1,2,3,4]'));
INSERT INTO v(a) VALUES (vec_int8('[1,2,3,9]'));
INSERT INTO v(rowid, a) VALUES (9, vec_int8('[4,3,2,1]'));
INSERT INTO v(a) VALUES (vec_int8('[1,2,3,4]'));
SELECT rowid, distance FROM v WHERE a MATCH vec_int8('[1,2,3,5]') AND k = 3;
SELECT rowid, distance FROM v WHERE a MATCH vec_int8('[1,2,3]') AND k = 3;
SELECT rowid, distance FROM v WHERE a MATCH vec_int8('[1,2,3,5]') AND k = 4097;
