CREATE VIRTUAL TABLE v USING vec0(a int8[2], p integer partition key, chunk_size=8);
INSERT INTO v(a, p) VALUES (vec_int8('[1,0]'), 1), (vec_int8('[2,0]'), 1), (vec_int8('[3,0]'), 1), (vec_int8('[4,0]'), 1), (vec_int8('[5,0]'), 1), (vec_int8('[6,0]'), 1), (vec_int8('[7,0]'), 1), (vec_int8('[8,0]'), 1), (vec_int8('[9,0]'), 1);
DELETE FROM v WHERE rowid IN (2, 4, 6);
INSERT INTO v(a, p) VALUES (vec_int8('[10,0]'), 2), (vec_int8('[11,0]'), 2), (vec_int8('[12,0]'), 2);
SELECT rowid, distance FROM v WHERE a MATCH vec_int8('[0,0]') AND k = 4;
SELECT rowid, distance FROM v WHERE a MATCH vec_int8('[0,0]') AND p = 2 AND k = 2;
