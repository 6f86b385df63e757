CREATE VIRTUAL TABLE v USING vec0(id text primary key, a int8[1]);
INSERT INTO v(id, a) VALUES ('x', vec_int8('[1]')), ('y', vec_int8('[2]'));
INSERT INTO v(id, a) VALUES ('x', vec_int8('[3]'));
INSERT INTO v(id, a) VALUES ('z', vec_int8('[3]')), ('x', vec_int8('[3]'));
SELECT rowid, id FROM v;
INSERT INTO v(rowid, id, a) VALUES (9, 'z', vec_int8('[3]'));
