"""A reply has at most 4,096 rows."""
rows = ",".join(["(vec_int8(x'01'))"] * 4097)
print("CREATE VIRTUAL TABLE v USING vec0(a int8[1]);")
print(f"INSERT INTO v(a) VALUES {rows};")
print("SELECT rowid FROM v; SELECT rowid FROM v LIMIT 4097;")
print("EXPLAIN SELECT rowid FROM v; EXPLAIN SELECT rowid FROM v LIMIT 4097; EXPLAIN SELECT rowid FROM v WHERE rowid = 4097;")
print("SELECT rowid FROM v WHERE rowid > 4090 LIMIT 5000; SELECT rowid FROM v LIMIT 4096")
