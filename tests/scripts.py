"""Scripts of the program, with the output that is wanted, as cases of `rt try --cases`.

Rows stand in `tests/scripts/*.rows`, a line each: the lines of the script with `; ` between them,
` | `, and the lines of the output. A faulty script has `status 2: ` there and what it prints on
standard error, and nothing on standard output. In a script `\\xHH` is a byte, `\\n` a newline, and
`\\e` at the end says that the last line lacks its newline. Lines that begin with `#` are comments.

Other scripts are too long for a row, or too many: `scripts_made` makes them.

    tests/scripts.py            runs all, and prints how many passed
"""
import glob
import itertools
import os
import re
import subprocess
import sys
import tempfile

TOP = os.path.dirname(os.path.dirname(os.path.abspath(__file__)))
ROWS = os.path.join(TOP, "tests", "scripts")


def script_bytes(field):
    """Returns the bytes of the script that a row writes."""
    lacks_newline = field.endswith("\\e") or not field
    text = field[:-2] if field.endswith("\\e") else field
    script = "\n".join(text.split("; ")) + ("" if lacks_newline else "\n")
    parts = re.split(r"(\\x[0-9a-f]{2}|\\n)", script)
    return b"".join(
        bytes([int(part[2:], 16)]) if part.startswith("\\x")
        else b"\n" if part == "\\n" else part.encode()
        for part in parts
    )


def rows_of(path):
    """Returns the script and the wanted field of each row of a file, with the row's number."""
    with open(path, encoding="utf-8", newline="\n") as file:
        lines = file.read().split("\n")
    for number, line in enumerate(lines, 1):
        if line and not line.startswith("#"):
            script, wanted = re.fullmatch(r"(.*?) ?\| ?(.*)", line).groups()
            yield number, script_bytes(script), wanted


def lines_of(items):
    """Returns text of these lines."""
    return "".join(item + "\n" for item in items)


def piece_lines(pieces):
    """Returns the lines of pieces of bytes."""
    return ["piece " + (piece.hex() or "-") for piece in pieces]


def output_over(pieces, answers):
    """Returns the lines of answers: of each, the bytes that make it definite, or None."""
    lines = []
    for needed, answer in answers:
        length, number = 0, "end"
        for count, piece in enumerate(pieces, 1):
            length += len(piece)
            if needed is not None and needed <= length:
                number = str(count)
                break
        lines.append(f"{number} {answer}")
    return lines


def cuts_of(parts):
    """Yields each way to join neighbours, also with an empty piece before each piece."""
    for cuts in itertools.product([False, True], repeat=len(parts) - 1):
        pieces = [parts[0]]
        for part, cut in zip(parts[1:], cuts):
            if cut:
                pieces.append(part)
            else:
                pieces[-1] += part
        yield pieces
        yield [piece for part in pieces for piece in (b"", part)]


# Twelve steps over `abcabd`, with the answer of each and the bytes that make it definite.
OVER_BYTES = [
    ("mark", 0, "mark 0"),
    ("take 2", 2, "slice 0..2"),
    ("mark", 2, "mark 1"),
    ("compare 63", 3, "compare ok 1"),
    ("find 616264", 6, "find 1..4"),
    ("reset 0", 6, "done"),
    ("find 626361 6263 64", 6, "find 1..4"),
    ("reset 1", 6, "done"),
    ("since 0", 6, "offset 2"),
    ("first 100..100", 6, "first 3"),
    ("at 3", 6, "at 3"),
    ("finish", None, "slice 2..6"),
]

# The same over `aé1ß`.
OVER_TEXT = [
    ("mark", 0, "mark 0"),
    ("take 1", 1, "slice 0..1"),
    ("mark", 1, "mark 1"),
    ("compare c3a9", 3, "compare ok 2"),
    ("find c39f", 6, "find 3..5"),
    ("reset 0", 6, "done"),
    ("find c3a931 31 c39f", 6, "find 1..4"),
    ("reset 1", 6, "done"),
    ("since 0", 6, "offset 1"),
    ("first 48..57", 6, "first 2"),
    ("at 2", 6, "at 3"),
    ("finish", None, "slice 1..6"),
]

# The same over its bytes, which may be cut inside a character.
OVER_BYTES_OF_TEXT = [
    ("at 3", 6, "at 3") if step == "at 2" else (step, needed, answer)
    for step, needed, answer in OVER_TEXT
]


def cut_scripts():
    """Makes a script of each cut of an input, in bytes and in text."""
    text = [character.encode() for character in "aé1ß"]
    letters = [bytes([byte]) for byte in b"abcabd"]
    bytes_of_text = [bytes([byte]) for byte in b"".join(text)]
    for name, kind, steps, parts in (
        ("letters", "byte-pieces", OVER_BYTES, letters),
        ("text", "text-pieces", OVER_TEXT, text),
        ("bytes-of-text", "byte-pieces", OVER_BYTES_OF_TEXT, bytes_of_text),
    ):
        for number, pieces in enumerate(cuts_of(parts)):
            script = [kind] + [step for step, _, _ in steps] + piece_lines(pieces)
            wanted = output_over(pieces, [(needed, answer) for _, needed, answer in steps])
            yield f"cuts-{name}-{number}", lines_of(script), lines_of(wanted)

ROUNDS = 120


def long_bytes():
    """Returns three letters for each round, from `a` to `i` in turn."""
    return bytes(97 + place % 9 for place in range(3 * ROUNDS))


def long_scripts():
    """Makes scripts of many rounds of `next`, `take 2` and `mark`, whole and in pieces."""
    given = long_bytes()
    rounds = ["next", "take 2", "mark"] * ROUNDS
    answers = []
    for number in range(ROUNDS):
        at = 3 * number
        answers += [f"token {given[at]}", f"slice {given[at + 1:at + 3].hex()}", f"mark {number}"]
    items = "items" + "".join(f" {place}:{byte}" for place, byte in enumerate(given))
    for kind in ("bytes", "text"):
        script = [kind, "each", "peek-finish", *rounds, "eof", "input " + given.hex()]
        wanted = [items, "slice " + given.hex(), *answers, "offset 0"]
        yield f"long-{kind}", lines_of(script), lines_of(wanted)
    pieces = [bytes([byte]) for byte in given]
    told = []
    for number in range(ROUNDS):
        first, last = 3 * number + 1, 3 * number + 3
        told += [f"{first} token {given[first - 1]}", f"{last} slice {first}..{last}"]
        told += [f"{last} mark {number}"]
    told.append(f"end items {len(given)}..{len(given)}")
    for kind in ("byte-pieces", "text-pieces"):
        script = [kind, *rounds, "each", *piece_lines(pieces)]
        yield f"long-{kind}", lines_of(script), lines_of(told)


def many_steps():
    """Makes scripts of 20,000 steps, none of which is refused."""
    for kind, step, given, answer in (
        ("byte-pieces", "peek", b"abc", "1 token 97"),
        ("text-pieces", "peek", "é".encode(), "1 token 233"),
        ("bytes", "peek", b"abc", "token 97"),
        ("byte-pieces", "mark", b"a", None),
    ):
        word = "input " if kind == "bytes" else "piece "
        script = [kind, *[step] * 20_000, word + given.hex()]
        wanted = [answer or f"1 mark {number}" for number in range(20_000)]
        yield f"steps-{kind}-{step}", lines_of(script), lines_of(wanted)


def waiting_scripts():
    """Makes scripts of one step that waits through many small pieces."""
    count = 3_000
    hit = f"find {count - 3}..{count}"
    for step, after, answer in (
        (f"take {count}", count, f"slice 0..{count}"),
        (f"look {count}", count, f"slice 0..{count}"),
        (f"at {count}", count, f"at {count}"),
        (f"is {count}", count, "is true"),
        ("first 98..98", count, f"first {count - 1}"),
        ("compare " + "61" * (count - 1) + "62", count, f"compare ok {count}"),
        ("compare " + "61" * (count - 1) + "63", count, "compare error"),
        ("find 616162", count, hit),
        ("find 636161 616162", count, hit),
        ("find 636161 616162 62", count, hit),
        ("find 62 616162 6263", count, hit),
        ("finish", None, f"slice 0..{count}"),
        ("peek-finish", None, f"slice 0..{count}"),
        ("eof", None, f"offset {count}"),
        ("each", None, f"items 0..{count}"),
    ):
        pieces = [b"a"] * (count - 1) + [b"b"]
        for kind in ("byte-pieces", "text-pieces"):
            yield waiting_script(kind, step, pieces, after, answer)
    accents = ["é".encode()] * count
    for step, after, answer in (
        (f"at {count}", 2 * count, f"at {2 * count}"),
        (f"at {count + 1}", None, "at needs more"),
        (f"take {2 * count}", 2 * count, f"slice 0..{2 * count}"),
        (f"take {2 * count - 1}", 2 * count, "bad offset"),
        ("compare " + "c3a9" * count, 2 * count, f"compare ok {2 * count}"),
        ("each", None, f"items 0..{2 * count}"),
    ):
        yield waiting_script("text-pieces", step, accents, after, answer)


def marked_scripts():
    """Makes scripts with marks that later steps name, over many pieces of a letter."""
    count = 10_000
    answers = [(1, "mark 0"), *((number, "token 97") for number in range(1, count + 1))]
    steps = ["mark", *["next"] * count, "reset 0"]
    yield letters_script("mark", steps, count, [*answers, (count, "done")])
    steps, answers, count = [], [], 5_000
    for mark in range(count):
        steps += ["mark", "next"]
        answers += [(max(mark, 1), f"mark {mark}"), (mark + 1, "token 97")]
    for mark in range(count):
        steps += [f"since {mark}", "next"]
        answers += [(count + mark, f"offset {count}"), (count + mark + 1, "token 97")]
    yield letters_script("marks", steps, 2 * count, answers)


def needle_scripts():
    """Makes scripts of searches for needles that come by pieces of a letter, or do not."""
    count = 10_000
    letters = "61" * count
    for step, last, answer in (
        (f"find {letters}62", b"b", (count + 1, f"find 0..{count + 1}")),
        (f"find {letters}62", b"c", (None, "find none")),
        (f"find {letters}62 61", b"b", (count + 1, f"find 0..{count + 1}")),
        (f"find {letters}62 61", b"c", (count + 1, "find 0..1")),
        (f"find 6162 {letters}63 61", b"b", (count + 1, "find 0..1")),
        (f"find 6262 {letters}63 {letters}62", b"b", (count + 1, f"find 0..{count + 1}")),
    ):
        pieces = [b"a"] * count + [last]
        for kind in ("byte-pieces", "text-pieces"):
            yield waiting_script(kind, step, pieces, *answer)


def letters_script(name, steps, count, answers):
    """Returns a script over pieces of a letter, with the pieces that answer its steps."""
    script = ["byte-pieces", *steps, *piece_lines([b"a"] * count)]
    return f"many-{name}", lines_of(script), lines_of(f"{piece} {text}" for piece, text in answers)


def waiting_script(kind, step, pieces, after, answer):
    """Returns a script of one step, with a name that says which."""
    short = step if len(step) < 40 else step[:36] + "~" + step[-2:]
    name = f"waiting-{kind}-{short.replace(' ', '_')}-{pieces[0].hex()}-{pieces[-1].hex()}"
    script = lines_of([kind, step, *piece_lines(pieces)])
    return name, script, lines_of(output_over(pieces, [(after, answer)]))


def scripts_made():
    """Makes the scripts that no row writes: a name, the script, and its output."""
    yield from cut_scripts()
    yield from long_scripts()
    yield from many_steps()
    yield from waiting_scripts()
    yield from marked_scripts()
    yield from needle_scripts()


def write(path, content):
    with open(path, "wb") as file:
        file.write(content)


def write_cases(to, rows=ROWS):
    """Writes all scripts into a folder, as cases NAME and NAME.stdout. Returns, by name, the status
    and the text on standard error of those that are to fail, which have no NAME.stdout: `rt try`
    shows what a case prints on standard error only where it has none."""
    failing = {}
    for path in sorted(glob.glob(os.path.join(rows, "*.rows"))):
        base = os.path.splitext(os.path.basename(path))[0]
        for number, script, wanted in rows_of(path):
            name = f"{base}-{number}"
            faulty = re.fullmatch(r"status (\d+): (.*)", wanted)
            write(os.path.join(to, name), script)
            if faulty:
                failing[name] = (int(faulty[1]), faulty[2])
            else:
                output = lines_of(wanted.split("; ")) if wanted else ""
                write(os.path.join(to, name + ".stdout"), output.encode())
    for name, script, output in scripts_made():
        write(os.path.join(to, name), script.encode())
        write(os.path.join(to, name + ".stdout"), output.encode())
    return failing


def read_report(report):
    """Returns, by the name of a case, its line and the lines before it on standard error."""
    cases, before = {}, []
    for line in report.split("\n"):
        if line.startswith("case="):
            name = line[len("case="):].split(" run=")[0]
            cases[name] = (line + " ", "\n".join(before))
            before = []
        else:
            before.append(line)
    return cases


def printed_by(output):
    """Returns what cases without a file NAME.stdout print, by name."""
    parts = re.split(r"^== (.*)\n", output, flags=re.MULTILINE)
    return dict(zip(parts[1::2], parts[2::2]))


def failures(names, failing, output, report):
    """Returns what is wrong with cases, by what `rt try --cases` wrote."""
    cases, printed, wrong = read_report(report), printed_by(output), []
    for name in names:
        line, told = cases.get(name, ("no answer", ""))
        status, text = failing.get(name, (0, ""))
        good = f" run=ended status={status} " in line
        if name in failing:
            good = good and told == text and not printed.get(name)
        else:
            good = good and " output=expected " in line
        if not good:
            wrong.append(f"{name}: {line}\n{told}\n    wanted: {text or 'its output'}")
    return wrong


def main():
    with tempfile.TemporaryDirectory() as to:
        failing = write_cases(to)
        names = sorted(name for name in os.listdir(to) if not name.endswith(".stdout"))
        crate = os.path.join(TOP, "crates", "winnow_script")
        done = subprocess.run(["rt", "try", "--cases", to], cwd=crate, capture_output=True,
                              check=False)
        output, report = (text.decode(errors="replace") for text in (done.stdout, done.stderr))
        wrong = failures(names, failing, output, report)
    for text in wrong:
        print(text)
    print(f"{len(names) - len(wrong)} passed, {len(wrong)} failed")
    return 1 if wrong or not names else 0


if __name__ == "__main__":
    sys.exit(main())
