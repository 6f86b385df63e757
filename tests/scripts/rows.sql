SELECT rowid, a FROM v;CREATE VIRTUAL TABLE v USING vec0(a int8[2]);
INSERT INTO v(rowid, a) VALUES (7, vec_int8('[1,2]')); INSERT INTO v(rowid, a) VALUES (7, vec_int8('[1,2]'));  SAVEPOINT v; CREATE VIRTUAL TABLE v USING vec0(a int8[2]);
INSERT INTO v(rowid, a) VALUES (3, vec_int8('[3,4]')); SELECT rowid, a FROM v