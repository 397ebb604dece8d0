#!/usr/bin/env python3
"""Makes the inputs of bench/formats, the same at each run, and times what Python's library makes of them.

    bench/format_inputs.py FOLDER [BYTES]    writes the files csv, resp and json into the folder, of some 10 MB each
    bench/format_inputs.py FOLDER --time     prints a row for csv.reader and one for json.loads over these files
"""
import csv
import io
import json
import random
import sys
import time
from pathlib import Path

WORDS = ["alpha", "beta", "gamma", "delta", "straße", "naïve", "a", "of", "measurements", "x-ray"]


def words(chance, most):
    """Returns some words with spaces between them."""
    return " ".join(chance.choice(WORDS) for _ in range(chance.randint(1, most)))


def csv_record(chance, number):
    """Returns a record of six fields, of which one stands between quotes each time, and a second at times."""
    name = words(chance, 2)
    remark = words(chance, 6)
    if chance.random() < 0.3:
        remark = remark.replace(" ", ', "so" ', 1)
    fields = [number, name, f"{chance.uniform(-90, 90):.5f}", chance.randint(0, 10**6), f"{name}, {number}", remark]
    line = io.StringIO(newline="")
    csv.writer(line).writerow(fields)
    return line.getvalue().encode()


def resp_reply(chance, number):
    """Returns an array of bulk strings, with a number of their own before each."""
    strings = [b"HSET", b"user:%d" % number, words(chance, 2).encode(), words(chance, 8).encode(), b"%d" % chance.randint(0, 10**6)]
    return b"*%d\r\n" % len(strings) + b"".join(b"$%d\r\n%s\r\n" % (len(string), string) for string in strings)


def json_record(chance, number):
    """Returns an object with numbers, strings of which some have escapes, words, and nested values."""
    record = {
        "id": number,
        "name": words(chance, 2),
        "remark": words(chance, 6) + chance.choice(["", "", '\n"so"', "\t\\", "\u0001"]),
        "active": chance.random() < 0.5,
        "score": chance.choice([None, round(chance.uniform(-90, 90), 5), 1.5e-7]),
        "place": {"x": chance.randint(-1000, 1000), "y": chance.randint(-1000, 1000), "tags": [words(chance, 1) for _ in range(3)]},
    }
    return json.dumps(record, ensure_ascii=number % 4 == 0).encode()


def make(name, size):
    """Returns the input of this format, of at least this size."""
    chance = random.Random(name)
    one = {"csv": csv_record, "resp": resp_reply, "json": json_record}[name]
    parts, made = [], 0
    while made < size:
        parts.append(one(chance, len(parts)))
        made += len(parts[-1]) + 2
    if name == "json":
        return b"[" + b",\n".join(parts) + b"]\n"
    return b"".join(parts)


def least(read, text):
    """Returns the least nanoseconds a byte of five turns."""
    times = []
    for _ in range(5):
        start = time.perf_counter()
        read(text)
        times.append(time.perf_counter() - start)
    return min(times) * 1e9 / len(text)


def read_csv(text):
    for _ in csv.reader(io.StringIO(text.decode(), newline="")):
        pass


if __name__ == "__main__":
    folder = Path(sys.argv[1])
    if "--time" in sys.argv:
        print(f"| CSV | Python's csv.reader | {least(read_csv, (folder / 'csv').read_bytes()):.2f} |")
        print(f"| JSON | Python's json.loads | {least(json.loads, (folder / 'json').read_bytes()):.2f} |")
    else:
        for name in ["csv", "resp", "json"]:
            (folder / name).write_bytes(make(name, int(sys.argv[2]) if len(sys.argv) > 2 else 10_000_000))
