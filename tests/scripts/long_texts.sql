CREATE VIRTUAL TABLE v USING vec0(a int8[1], m text);
INSERT INTO v(a, m) VALUES (vec_int8('[0]'), ''), (vec_int8('[0]'), 'abcdefghijkl'), (vec_int8('[0]'), 'abcdefghijklm'), (vec_int8('[0]'), 'abcdefghijklz');
SELECT rowid FROM v WHERE m = 'abcdefghijklm';
SELECT rowid FROM v WHERE m != 'abcdefghijklm';
SELECT rowid FROM v WHERE m < 'abcdefghijklm';
SELECT rowid FROM v WHERE m <= 'abcdefghijklm';
SELECT rowid FROM v WHERE m > 'abcdefghijklm';
SELECT rowid FROM v WHERE m >= 'abcdefghijklm';
