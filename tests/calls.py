#!/usr/bin/env python3
"""Makes every public call of the library that may be refused memory where memory is there, and fails where one says that it was refused.

    tests/calls.py WORKSPACE

The calls are listed from the signatures in the sources of the crates that `winnow` stands on, and of the formats: all whose answer may hold an `AllocError`, but
for those of private types and traits, those whose contracts say that none comes, and parsers that are refused memory only where a part of theirs is. `refusal_calls` of the
workspace has a row for each, which is named as the call is, and makes it on no items, on a few and on thousands.

It also fails where a source of the library makes an `AllocError` itself. Only the allocator does, but for the places in `MADE`.
"""
import os
import re
import subprocess
import sys

TOP = os.path.dirname(os.path.dirname(os.path.realpath(__file__)))

# The types whose values may say that memory was refused.
REFUSING = ("AllocError", "RecordError", "RowError", "FieldError", "ReadError", "ModalResult", "WholeResult", "Unread", "Unwritten", "EventError", "WithinError")

# The sources that make an `AllocError`: of more separators than a `usize` counts, and of the want of memory that `hex` and a record of an error tell of.
MADE = {"winnow_combinator/src/parsers/separated.rt", "winnow_resume/src/following.rt", "winnow_script_lines/src/literals.rt"}

# The formats that are made of formats, and the functions that write several.
OF_PARTS = r"\bFormat\s+for (\(|&|(After|AtMost|ByCode|EitherFormat|EnumOf|InLayers|MappedBy|OneValue|PresentIf|Struct|Tagged|Then|Verified|WithinCount)<)"
ROWS = ["two", "three", "four", "five", "six", "seven", "eight", "nine", "ten", "first", "second", "third", "last_of_two", "last_of_three", "last_of_four", "in_range", "other_of_two", "other_of_three"]

# How an impl says that a method is never refused memory of its own.
NEVER = {
    "append": r"ghost append_refusable = \{ ⊥ \}",
    "or": r"ghost or_refusable = \{ ⊥ \}",
    "add_context": r"ghost add_context_refusable = \{ ⊥ \}",
    "convert": r"ghost convert_refusable = \{ ⊥ \}",
    "initial": r"ghost refusable = \{ ⊥ \}",
    "accumulate": r"ghost refusable = \{ ⊥ \}",
    "clone": r"ghost is_infallible = \{ λ _\. ⊤ \}",
    # Where no error is recorded, each comes back as it came.
    "record_err": r"(?s)\A(?!.*ghost refuses =)",
    # A parser's meaning names what may be refused beside its parts.
    "parse_next": r"(?s)\A(?!.*ghost means = \{[^}]*refusable)",
    "take": r"ghost refusable = \{ ⊥ \}",
    # It is refused what its `Gather` is.
    "begin": r"\bBegin<T> for Folded<",
    # It hands on what was refused.
    "from": r"\bFrom<AllocError> for ",
    "into_mode": r"\bimpl<E> Failure<E>",
    # They are refused what their parsers are.
    "ask": r"^pub fn ask<",
    "ask_as": r"^pub fn ask_as<",
    "ask_bytes": r"^pub fn ask_bytes<",
    "ask_text": r"^pub fn ask_text<",
    # Operators are refused what their parsers are.
    "read_operator": r"\b(Unary|Infix)Operators<",
    "apply": r"\b(Unary|Infix)Operators<",
    # It is refused what its record of text, the record that it limits, its part of a grammar, or its format is; a format of parts, what they are.
    "read": rf"\b(Text)?Record for (Utf8Record|PlainRecord|PlainTextRecord|ReadOf|Limited)<|{OF_PARTS}",
    "write": OF_PARTS,
    # Cases, and rows of formats, are refused what they are of.
    "read_after": r"\bCases<",
    "write_after": r"\bCases<",
    **{f"write_{name}": rf"^pub fn write_{name}<" for name in ROWS},
}

# How rows begin that are of the program of scripts, of a reader of text, and of one of replies.
FURTHER = ("script: ", "text: ", "replies: ")


def formats():
    """Returns the names of the formats: the crates that stand on `format_lemmas`."""
    with open(f"{TOP}/crates.txt", encoding="utf-8") as text:
        return re.findall(r"^(format_\w+):.* format_lemmas\b", text.read(), flags=re.M)


def crates(names):
    """Returns the names of these crates and of all that they stand on."""
    lines = subprocess.run([f"{TOP}/tools/crates", *names], check=True, stdout=subprocess.PIPE, text=True).stdout
    return [re.split("[ :]", line)[0] for line in lines.splitlines()]


def sources(crate):
    """Yields the path of each source of a crate from `crates` on, and its text without comments."""
    for folder, _, names in os.walk(f"{TOP}/crates/{crate}/src"):
        for name in names:
            with open(f"{folder}/{name}", encoding="utf-8") as text:
                path = os.path.relpath(f"{folder}/{name}", f"{TOP}/crates")
                yield path, re.sub(r"^ *//.*\n", "", text.read(), flags=re.M)


def behind(text):
    """Returns what stands behind the angle brackets with which a text begins, if it does."""
    depth = 0
    for place, sign in enumerate(text):
        depth += (sign == "<") - (sign == ">" and text[place - 1] != "-")
        if depth == 0:
            return text[place + (sign == ">"):]
    return text


def plain(words):
    """Returns the name of a type without lifetimes, on one line."""
    return re.sub("<>", "", re.sub(r"'\w+,? ?", "", " ".join(words.split())))


def owner(block):
    """Returns what an impl is of, as paths name it, or a trait's name; `None` where the block is neither."""
    head = re.search(r"^impl\b(.*?)(?:\bwhere\b|\{$)", block, flags=re.M | re.S)
    if not head:
        declared = re.search(r"^pub trait (\w+)", block, flags=re.M)
        return declared and declared.group(1)
    words = plain(behind(head.group(1).strip()))
    trait, found, of = words.partition(" for ")
    return f"<{of} as {trait}>" if found else trait


def function(text, indent):
    """Returns whether a function is `pub`, its name, and the type that it answers; `None` where the text has no function."""
    found = re.search(rf"^{indent}(pub )?(?:final )?fn (\w+)(.*\((?:.*\)|\n(?:{indent} .*\n)*{indent}\)).*)", text, flags=re.M)
    # A trait's method without a body ends with a semicolon; the brace after the last one is the trait's.
    if not found or re.search(r";(\n\})?\s*\Z", text):
        return None
    return bool(found.group(1)), found.group(2), found.group(3).rpartition(") -> ")[2]


def may_be_refused(answer):
    return any(re.search(rf"\b{name}\b", answer) for name in REFUSING)


def is_never_refused(name, block, is_format):
    """Returns whether an impl says that this method is never refused memory of its own. The meaning of a format's parser does not name what may be refused."""
    return not (is_format and name == "parse_next") and re.search(NEVER.get(name, "(?!)"), block, flags=re.M)


def calls_of(crate, is_format):
    """Yields the calls of a crate that may be refused memory, as rows are named."""
    texts = [text for _, text in sources(crate)]
    exported = set(re.findall(r"\w+", " ".join(re.findall(r"^pub use ([^;]*);", "\n".join(texts), flags=re.M | re.S))))
    private = set(re.findall(r"^(?:pub\(crate\) )?(?:struct|enum|trait) (\w+)", "\n".join(texts), flags=re.M))
    for block in (block for text in texts for block in re.split(r"\n\n(?=\S)", text)):
        of = owner(block)
        members = re.split(r"\n\n(?=    \S)", block) if of else [block]
        for member in members:
            found = function(member, "    " if of else "")
            if not found or not may_be_refused(found[2]):
                continue
            is_public, name, _ = found
            is_public = is_public or re.search(r"^pub trait ", block, flags=re.M)
            if of and of.startswith("<"):
                if private.isdisjoint(re.match(r"<(\w*).* as (\w+)", of).groups()) and not is_never_refused(name, block, is_format):
                    yield f"{of}::{name}"
            elif is_public and re.match(r"\w+", of or name).group() in exported:
                if (of and name != "into_mode") or not is_never_refused(name, block, is_format):
                    yield f"{of}::{name}" if of else name


def makes_refusal(text):
    """Returns whether a source makes an `AllocError`: whether it names the type elsewhere than in a type, or gives it another name."""
    code = re.sub(r"^ *(?:ghost |pub )*use (?:(?!\bAllocError as\b)[^;])*;", "", text, flags=re.M)
    in_types = r"\bAllocError>|^    Refused\(AllocError\),$|\(\w+: AllocError\) ->"
    return "AllocError" in re.sub(in_types, "", code, flags=re.M)


def made_refusals():
    """Yields a line for each source that makes an `AllocError`, and should not; and for each in `MADE` that makes none."""
    libraries = [name for name in os.listdir(f"{TOP}/crates") if name.startswith(("winnow", "format_"))]
    making = {path for crate in libraries for path, text in sources(crate) if makes_refusal(text)}
    yield from (f"{path} makes an AllocError" for path in sorted(making - MADE))
    yield from (f"{path} makes no AllocError" for path in sorted(MADE - making))


def main(workspace):
    own = formats()
    listed = {call for crate in crates(["winnow", *own]) for call in calls_of(crate, crate in own)}
    ran = subprocess.run(["rt", "try"], cwd=f"{workspace}/crates/refusal_calls", capture_output=True, text=True, check=False)
    if "run=ended status=0" not in ran.stderr:
        print(ran.stderr[-3000:])
        print("0 passed, 1 failed")
        return 1
    rows = dict(line.rsplit(": ", 1) for line in ran.stdout.splitlines())
    faults = [f"{call} has no row" for call in sorted(listed - rows.keys())]
    faults += [f"{row} is no call" for row in rows if row not in listed and not row.startswith(FURTHER)]
    faults += [f"{row} was {outcome}" for row, outcome in rows.items() if outcome != "done"]
    faults += made_refusals()
    print("\n".join(faults))
    print(f"{len(rows) - len(faults)} passed, {len(faults)} failed")
    return 1 if faults or not listed or not own else 0


if __name__ == "__main__":
    sys.exit(main(*sys.argv[1:]))
