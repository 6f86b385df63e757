CREATE VIRTUAL TABLE articles USING vec0(id integer primary key, topic text partition key, shown boolean, e int8[3], +title text);
INSERT INTO articles(topic, shown, e, title) VALUES
  ('garden', true, vec_int8('[40,2,-9]'), 'Roses in May'),
  ('garden', true, vec_int8('[38,7,-4]'), 'A hedge of hazel'),
  ('kitchen', true, vec_int8('[-30,50,11]'), 'Bread');

BEGIN;
INSERT INTO articles(topic, shown, e, title) VALUES ('garden', false, vec_int8('[39,3,-8]'), 'Roses, a draft');
SAVEPOINT another_text;
UPDATE articles SET e = vec_int8('[-20,60,5]'), title = 'Rose jam' WHERE id = 4;
SELECT id, distance, title FROM articles WHERE e MATCH vec_int8('[40,2,-9]') AND topic = 'garden' AND k = 2;
ROLLBACK TO another_text;
UPDATE articles SET title = 'Roses in June', shown = true WHERE id = 4;
SELECT id, distance, title FROM articles WHERE e MATCH vec_int8('[40,2,-9]') AND topic = 'garden' AND k = 2;
RELEASE another_text;
COMMIT;

SAVEPOINT tidy;
DELETE FROM articles WHERE topic = 'garden';
SELECT id, title FROM articles;
ROLLBACK TO tidy;
DELETE FROM articles WHERE topic = 'kitchen';
RELEASE tidy;
SELECT id, title FROM articles;

BEGIN;
INSERT INTO articles(topic, shown, e, title) VALUES ('kitchen', false, vec_int8('[-28,52,9]'), 'Rolls');
ROLLBACK;
INSERT INTO articles(topic, shown, e, title) VALUES ('garden', true, vec_int8('[36,9,-2]'), 'Ivy on a wall');
ROLLBACK;

EXPLAIN SELECT title FROM articles WHERE id = 4;
EXPLAIN SELECT title FROM articles WHERE topic = 'garden' AND shown = true;
EXPLAIN SELECT title FROM articles WHERE e MATCH vec_int8('[40,2,-9]') AND k = 2;
