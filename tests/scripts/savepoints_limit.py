"""A session has at most 64 savepoints, whatever began its transaction and whatever their names are."""
print("CREATE VIRTUAL TABLE v USING vec0(a int8[1]);")
print("BEGIN;")
for number in range(1, 66):
    print(f"SAVEPOINT s{number};")
    print(f"INSERT INTO v(a) VALUES (vec_int8('[{number}]'));")
print("ROLLBACK TO s65; RELEASE s65; SELECT rowid FROM v WHERE rowid > 63;")
print("RELEASE s64; SAVEPOINT s64; SAVEPOINT s65;")
print("ROLLBACK TO s1; SELECT rowid FROM v;")
for number in range(2, 66):
    print("SAVEPOINT s1;")
print("COMMIT;")
for number in range(1, 66):
    print("SAVEPOINT s;")
for number in range(1, 66):
    print("RELEASE s;")
print("COMMIT;")
