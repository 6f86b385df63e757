CREATE VIRTUAL TABLE pages USING vec0(words int8[3], language text, +address text, chunk_size=64);
INSERT INTO pages(rowid, words, language, address) VALUES
  (10, vec_int8('[1,0,0]'), 'en', '/start'), (20, vec_int8('[0,1,0]'), 'de', '/anfang'), (30, vec_int8('[1,1,0]'), 'en', '/about'),
  (40, vec_int8('[0,0,1]'), 'en', '/help'), (50, vec_int8('[1,0,1]'), 'de', '/hilfe'), (60, vec_int8('[0,1,1]'), 'en', '/terms');
INSERT INTO pages(words, language, address) VALUES (vec_int8('[1,1,1]'), 'en', '/news');

SELECT rowid, address FROM pages WHERE language = 'en' ORDER BY rowid LIMIT 2;
SELECT rowid, address FROM pages WHERE language = 'en' AND rowid > 30 ORDER BY rowid LIMIT 2;
SELECT rowid, address FROM pages WHERE language = 'en' AND rowid > 60 ORDER BY rowid LIMIT 2;

SELECT address, distance FROM pages WHERE words MATCH vec_int8('[1,1,1]') AND language = 'en' LIMIT 3;
SELECT rowid, words FROM pages WHERE rowid = 61;
SELECT address FROM pages WHERE address = '/help' OR address = '/terms';
SELECT address FROM pages WHERE rowid IN (40, 60) LIMIT -1;
