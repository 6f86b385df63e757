"""The greatest distances of int8 vectors."""
low, high = ("[" + ",".join([str(element)] * 8192) + "]" for element in (-128, 127))
print("CREATE VIRTUAL TABLE v USING vec0(a int8[8192], b int8[8192] distance_metric=l1);")
print(f"INSERT INTO v(a, b) VALUES (vec_int8('{low}'), vec_int8('{low}'));")
for column in "ab":
    print(f"SELECT distance FROM v WHERE {column} MATCH vec_int8('{high}') AND k = 1;")
