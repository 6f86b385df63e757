"""Limits of tables (in a transaction too), of items and terms, and of stored texts."""
for number in range(1, 66):
    print(f"CREATE VIRTUAL TABLE v{number} USING vec0(a int8[1], +x text);")
for items, terms in ((64, 1), (65, 1), (64, 65), (65, 65)):
    print(f"SELECT {','.join(['rowid'] * items)} FROM v1 WHERE {' AND '.join(['rowid = 1'] * terms)};")
for length in (1_048_576, 1_048_577):
    print(f"INSERT INTO v1(a, x) VALUES (vec_int8('[1]'), '{'x' * length}');")
print("BEGIN; DROP TABLE v2; CREATE VIRTUAL TABLE w USING vec0(a int8[1]); CREATE VIRTUAL TABLE x USING vec0(a int8[1]);")
print("ROLLBACK; CREATE VIRTUAL TABLE w USING vec0(a int8[1]);")
