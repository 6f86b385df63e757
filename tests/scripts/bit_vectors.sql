CREATE VIRTUAL TABLE v USING vec0(b bit[8]);
INSERT INTO v(b) VALUES (vec_bit(X'0F'));
SELECT rowid, distance FROM v WHERE b MATCH vec_bit(X'FF') AND k = 1;
CREATE VIRTUAL TABLE w USING vec0(b bit[12]);
CREATE VIRTUAL TABLE w USING vec0(b bit[8] distance_metric=l2);
CREATE VIRTUAL TABLE w USING vec0(a float[4]);
CREATE VIRTUAL TABLE w USING vec0(a int8[4] distance_metric=cosine);
