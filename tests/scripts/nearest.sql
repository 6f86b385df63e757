CREATE VIRTUAL TABLE v USING vec0(a int8[2]);
INSERT INTO v(a) VALUES (vec_int8('[1,2]')); INSERT INTO v(a) VALUES (vec_int8('[3,4]'));INSERT INTO v(rowid, a) VALUES (7, vec_int8('[1,2]'));
SELECT rowid, distance FROM v WHERE a MATCH vec_int8('[0,0]') AND k = 2;
SELECT rowid, distance FROM v WHERE a MATCH vec_int8('[0,0]') AND k = 0;
SELECT rowid, distance FROM v WHERE a MATCH vec_int8('[0,0]') AND k = 4096;
SELECT rowid, distance FROM v WHERE a MATCH vec_int8('[0,0]') AND k = 4097;
SELECT rowid, distance FROM v WHERE a MATCH vec_int8('[0,0]') AND k = -1;
INSERT INTO v(rowid, a) VALUES (4, vec_int8('[1,2]'));
SELECT rowid, distance FROM v WHERE a MATCH vec_int8('[0,0]') AND k = +2