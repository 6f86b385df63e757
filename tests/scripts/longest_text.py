"""A statement of 4,194,304 bytes is read, one with a byte more is not, and the run goes on behind both."""
insert = "INSERT INTO v(a) VALUES (vec_int8('[1]'))"
print("CREATE VIRTUAL TABLE v USING vec0(a int8[1]);")
print(insert.ljust(4_194_304) + ";")
print(insert.ljust(4_194_305) + ";")
print("SELECT rowid FROM v")
