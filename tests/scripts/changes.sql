CREATE VIRTUAL TABLE v USING vec0(a int8[2]);
INSERT INTO v(a) VALUES (vec_int8('[1,2]')), (vec_int8('[3,4]'));
UPDATE v SET a = vec_int8('[0,1]') WHERE rowid IN (1, 5);
DELETE FROM v WHERE rowid > 2;
SELECT rowid, a FROM v;
