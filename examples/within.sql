CREATE VIRTUAL TABLE photos USING vec0(id integer primary key, e int8[2], +file text);
INSERT INTO photos(id, e, file) VALUES (1, vec_int8('[1,0]'), 'a.jpg'), (2, vec_int8('[2,0]'), 'b.jpg'), (3, vec_int8('[0,2]'), 'c.jpg'), (4, vec_int8('[2,1]'), 'd.jpg'), (5, vec_int8('[3,0]'), 'e.jpg'), (6, vec_int8('[9,9]'), 'f.jpg');

SELECT id, distance, file FROM photos WHERE e MATCH vec_int8('[0,0]') AND distance <= 5 AND k = 100;

SELECT id, distance FROM photos WHERE e MATCH vec_int8('[0,0]') AND k = 2;
SELECT id, distance FROM photos WHERE e MATCH vec_int8('[0,0]') AND distance >= 4 AND k = 3;
SELECT id, distance FROM photos WHERE e MATCH vec_int8('[0,0]') AND distance > 5 AND k = 3;

SELECT id FROM photos WHERE distance < 5;
SELECT id FROM photos WHERE e MATCH vec_int8('[0,0]') AND distance = 4 AND k = 3;
