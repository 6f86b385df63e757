"""What single statements cost beside tables of two sizes: writes in a transaction and by themselves, and a transaction that ends at once."""
import collections
import random
import sqlite3
import time

from shell import Shell

WIDTH = 128
FEW, MANY = 1_000, 198_000  # rows of the two tables; those that are inserted stay below the limit of 200,000
CHUNK = 500  # rows that one statement inserts when a table is filled
STATEMENTS = 400  # of one kind, in a row
ROUNDS = 3
SINGLE_INSERTS = 100_000

# The seconds of one statement beside the smaller and the larger table.
Cost = collections.namedtuple("Cost", "title few many")
# The seconds of single-row INSERTs in one transaction, by ours and by SQLite.
Singles = collections.namedtuple("Singles", "count ours sqlite")

WORDS = [str(byte if byte < 128 else byte - 256) for byte in range(256)]


def vector_text(draw):
    return "[" + ",".join(map(WORDS.__getitem__, draw.randbytes(WIDTH))) + "]"


def filling(draw, count):
    """The table, with rowids from 1."""
    yield f"CREATE VIRTUAL TABLE v USING vec0(a int8[{WIDTH}], n integer);\n".encode()
    for start in range(0, count, CHUNK):
        groups = ",".join(f"(vec_int8('{vector_text(draw)}'),{row})" for row in range(start, min(start + CHUNK, count)))
        yield f"INSERT INTO v(a, n) VALUES {groups};\n".encode()


def inserts(draw, count):
    return [f"INSERT INTO v(a, n) VALUES (vec_int8('{vector_text(draw)}'),0);\n".encode() for _ in range(STATEMENTS)]


def rowids(draw, count):
    return draw.sample(range(1, count + 1), STATEMENTS)


def updates(draw, count):
    return [f"UPDATE v SET n = 5 WHERE rowid = {rowid};\n".encode() for rowid in rowids(draw, count)]


def deletes(draw, count):
    return [f"DELETE FROM v WHERE rowid = {rowid};\n".encode() for rowid in rowids(draw, count)]


def transactions(draw, count):
    return [b"BEGIN; SAVEPOINT s; ROLLBACK;\n"] * STATEMENTS


# A kind of statement: how the texts are made, how many lines each is answered by, and whether it runs in a transaction that is given up.
Kind = collections.namedtuple("Kind", "title texts lines within")
KINDS = (
    Kind("INSERT of a row, in a transaction", inserts, 1, True),
    Kind("INSERT of a row, by itself", inserts, 1, False),
    Kind("UPDATE of a row by its rowid, in a transaction", updates, 1, True),
    Kind("DELETE of a row by its rowid, in a transaction", deletes, 1, True),
    Kind("BEGIN, SAVEPOINT and ROLLBACK", transactions, 3, False),
)


def seconds_of(shell, kind, draw, count):
    """The seconds of one text of the kind, the best of some rounds."""
    best = None
    for _ in range(ROUNDS):
        if kind.within:
            assert shell.asked([b"BEGIN;\n"], 1)[1] == [b"ok\n"]
        texts = kind.texts(draw, count)
        seconds, replies = shell.asked([b"".join(texts)], kind.lines * len(texts))
        assert all(line.startswith(b"ok") for line in replies), replies[-1]
        if kind.within:
            assert shell.asked([b"ROLLBACK;\n"], 1)[1] == [b"ok\n"]
        best = min(seconds / len(texts), best or seconds)
    return best


def costs_beside(count, seed):
    """The seconds of each kind of statement beside a table of so many rows."""
    draw = random.Random(f"{seed} writing {count}")
    shell = Shell()
    replies = shell.asked(filling(draw, count), 1 + -(-count // CHUNK))[1]
    assert replies[-1].endswith(b" last %d\n" % count), replies[-1]
    found = [seconds_of(shell, kind, draw, count) for kind in KINDS]
    shell.close()
    return found


def measure_writing(seed, many=MANY):
    few = costs_beside(FEW, seed)
    return [Cost(kind.title, *pair) for kind, pair in zip(KINDS, zip(few, costs_beside(many, seed)))]


def single_seconds(texts):
    """A whole transaction of single-row INSERTs, by ours."""
    shell = Shell()
    head = f"CREATE VIRTUAL TABLE v USING vec0(a int8[{WIDTH}]);\nBEGIN;\n".encode()
    assert shell.asked([head], 2)[1] == [b"ok\n"] * 2
    statements = [f"INSERT INTO v(a) VALUES (vec_int8('{text}'));\n".encode() for text in texts]
    seconds, replies = shell.asked(statements + [b"COMMIT;\n"], len(texts) + 1)
    assert replies[-2:] == [b"ok inserted 1 last %d\n" % len(texts), b"ok\n"], replies[-2:]
    shell.close()
    return seconds


def sqlite_seconds(texts):
    """The same number of statements by Python's sqlite3, over a table in memory with the vector as a blob."""
    statements = ["INSERT INTO v(a) VALUES (X'" + bytes(int(word) & 255 for word in text[1:-1].split(",")).hex() + "')" for text in texts]
    start = time.process_time()
    database = sqlite3.connect(":memory:", isolation_level=None)
    database.execute("CREATE TABLE v(rowid INTEGER PRIMARY KEY, a BLOB)")
    database.execute("BEGIN")
    for statement in statements:
        database.execute(statement)
    database.execute("COMMIT")
    return time.process_time() - start


def measure_singles(seed, count=SINGLE_INSERTS):
    draw = random.Random(f"{seed} singles")
    texts = [vector_text(draw) for _ in range(count)]
    return Singles(count, single_seconds(texts), sqlite_seconds(texts))


def line_of_cost(one):
    return f"{one.title}: {one.few * 1e6:.1f} us beside {FEW:,} rows, {one.many * 1e6:.1f} us beside more, {one.many / one.few:.2f} times"


def line_of_singles(one):
    return f"{one.count:,} INSERTs of a row of int8[{WIDTH}] in one transaction: {one.ours:.3f} s, over sqlite3 {one.ours / one.sqlite:.2f}"
