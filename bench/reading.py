"""The case 'bytes of statement text read a second': the proved program beside a plain C loop and Python's json."""
import collections
import json
import os
import random
import subprocess
import time

WIDTH = 128
ROUNDS = 5

# The bytes of the text, and the seconds of each program that read it.
Reading = collections.namedtuple("Reading", "size seconds")


def vector_texts(seed, count):
    draw = random.Random(f"{seed} reading")
    words = [str(byte if byte < 128 else byte - 256) for byte in range(256)]
    return ["[" + ",".join(map(words.__getitem__, draw.randbytes(WIDTH))) + "]" for _ in range(count)]


def statements_of(texts, chunk):
    """INSERTs into a table that is not there: each is read to its end and then refused, so that no row is kept."""
    groups = [texts[start : start + chunk] for start in range(0, len(texts), chunk)]
    return "".join(
        "INSERT INTO v(a) VALUES " + ",".join(f"(vec_int8('{text}'))" for text in group) + ";\n" for group in groups
    )


def own_seconds(program, text_file, statements):
    """The processor time of a whole run of the program over the text."""
    with open(text_file, "rb") as text:
        process = subprocess.Popen([program, "shell"], stdin=text, stdout=subprocess.PIPE)
        lines = process.stdout.read()
    process.stdout.close()
    _, status, used = os.wait4(process.pid, 0)
    process.returncode = os.waitstatus_to_exitcode(status)
    assert process.returncode == 2 and lines == b"error 5 no table\n" * statements, lines[-100:]
    return used.ru_utime + used.ru_stime


def compiled(source, folder):
    parser = folder / "parse"
    subprocess.run(["gcc", "-O3", "-march=x86-64-v2", "-o", parser, source], check=True)
    return parser


def plain_seconds(parser, text_file, wanted):
    outcome = subprocess.run([parser, str(ROUNDS), text_file], capture_output=True, text=True, check=True)
    count, total, seconds = outcome.stdout.split()
    assert (int(count), int(total)) == wanted, (count, total, wanted)
    return float(seconds)


def json_seconds(texts):
    """The processor time of Python's json over the same vectors, and the number of elements and their sum."""
    start = time.process_time()
    vectors = [json.loads(text) for text in texts]
    seconds = time.process_time() - start
    return seconds, (sum(map(len, vectors)), sum(map(sum, vectors)))


def measure_reading(program, source, folder, seed, count, chunk):
    texts = vector_texts(seed, count)
    statements = statements_of(texts, chunk).encode()
    text_file = folder / "statements"
    text_file.write_bytes(statements)
    times, wanted = json_seconds(texts)
    seconds = {"ours": min(own_seconds(program, text_file, -(-count // chunk)) for _ in range(ROUNDS))}
    seconds["C x86-64-v2"] = plain_seconds(compiled(source, folder), text_file, wanted)
    seconds["Python's json"] = times
    return Reading(len(statements), seconds)


def line_of_reading(one):
    rates = ", ".join(f"{name} {one.size / seconds / 1e6:,.0f}" for name, seconds in one.seconds.items())
    return f"{one.size:,} bytes of statement text with int8[{WIDTH}] vectors, millions of bytes read a second: {rates}"
