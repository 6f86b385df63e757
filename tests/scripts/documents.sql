CREATE VIRTUAL TABLE docs USING vec0(doc_id integer primary key, user text partition key, year integer, shown boolean, e int8[4] distance_metric=l1, +title text);
INSERT INTO docs(doc_id, user, year, shown, e, title) VALUES (1,'ann',2023,true,vec_int8('[1,2,3,4]'),'One'), (2,'ann',2024,true,vec_int8('[1,2,3,9]'),'Two'), (3,'bob',2024,true,vec_int8('[1,2,3,4]'),'Three');
SELECT doc_id, distance, title FROM docs WHERE e MATCH vec_int8('[1,2,3,4]') AND user = 'ann' AND year >= 2023 ORDER BY distance LIMIT 5;
