CREATE VIRTUAL TABLE images USING vec0(path text primary key, album text, fingerprint bit[64], +bytes integer);
INSERT INTO images(path, album, fingerprint, bytes) VALUES
  ('2024/beach.jpg', 'summer', vec_bit(x'F0E1D2C3B4A59687'), 48213),
  ('2024/beach-small.jpg', 'summer', vec_bit(x'F0E1D2C3B4A59685'), 9120),
  ('2024/dog.png', 'home', vec_bit(x'00FF00FF00FF00FF'), 77001);
INSERT INTO images(path, album, fingerprint, bytes) VALUES ('2024/dog.png', 'home', vec_bit(x'0000000000000000'), 1);
INSERT INTO images(path, album, fingerprint) VALUES ('copy/beach.jpg', 'found', vec_bit(x'F0E1D2C3B4A59687'));

SELECT path, distance FROM images WHERE fingerprint MATCH vec_bit(x'F0E1D2C3B4A59687') AND k = 3;
SELECT path, distance FROM images WHERE fingerprint MATCH vec_bit(x'F0E1D2C3B4A59687') AND k = 3 AND album != 'summer';
SELECT path FROM images WHERE fingerprint MATCH vec_bit(x'F0E1') AND k = 1;

DELETE FROM images WHERE path = 'copy/beach.jpg';
SELECT path, bytes FROM images WHERE bytes > 9120 LIMIT 10;
