"""What csv_documents and resp_documents share: the built program, damage, pieces, the comparison.

A script names its program, makes a document from a source of random numbers, and says what the
program must answer to it. Each document has a source of its own, made from the seed and the
document's number, so that the same number gives the same document in every run.
"""

import collections
import multiprocessing
import os
import random
import socket
import subprocess
import sys
import time

TOP = os.path.dirname(os.path.dirname(os.path.realpath(__file__)))
PROCESSES = 2
# How many documents a process takes at once.
SHARE = 500
# How many unexplained documents are printed.
PRINTED = 3

# What the program must print, or None where that is not compared; its status; and the name of the
# rule by which it differs from what it is compared with, or None.
Answer = collections.namedtuple("Answer", "output status rule")


def is_built(program, name):
    """Whether the program was built after the last change of a file that it is made from."""
    if not os.path.exists(program):
        return False
    lines = subprocess.run([f"{TOP}/tools/crates", name], check=True, stdout=subprocess.PIPE).stdout
    crates = [line.split(":")[0].split()[0] for line in lines.decode().splitlines()]
    parts = [f"{TOP}/crates/{it}/{part}" for it in crates for part in ("src", "specs", "proofs")]
    files = [os.path.join(folder, file) for part in parts
             for folder, _, names in os.walk(part) for file in names]
    built = os.stat(program).st_mtime
    return all(os.stat(file).st_mtime <= built for file in [f"{TOP}/crates.txt", *files])


def built_program(name):
    """Returns the path of a program, proved and built first where that is not done yet."""
    program = f"{TOP}/crates/{name}/out/{name}"
    if not is_built(program, name):
        print(f"{name} is proved and built first, from its sources as they are", file=sys.stderr)
        if subprocess.run([f"{TOP}/tools/prove", name], stdout=sys.stderr, check=False).returncode:
            sys.exit(1)
    return program


def random_byte(chance, special):
    """Returns a byte, in three of four cases one of the special ones."""
    return chance.choice(special) if chance.random() < 0.75 else chance.randrange(256)


def damaged(chance, document, special):
    """Returns the document with one to three bytes put in, taken out or replaced."""
    held = bytearray(document)
    for _ in range(chance.randint(1, 3)):
        place = chance.randint(0, len(held))
        edit = chance.randrange(3)
        if edit == 0 or place == len(held):
            held.insert(place, random_byte(chance, special))
        elif edit == 1:
            del held[place]
        else:
            held[place] = random_byte(chance, special)
    return bytes(held)


def pieces_of(chance, document):
    """Returns the document in pieces: as a whole, byte by byte, or of sizes up to a small one."""
    longest = chance.choice([1, 5, 20, None])
    pieces = []
    while document:
        size = chance.randint(1, longest) if longest else len(document)
        pieces.append(document[:size])
        document = document[size:]
    return pieces


def document_at(make, special, seed, number):
    """Returns the document with this number, damaged where the number is odd, and its pieces."""
    chance = random.Random(f"{seed} {number}")
    document = make(chance)
    if number % 2:
        document = damaged(chance, document, special)
    return document, pieces_of(chance, document)


def printed(program, pieces):
    """Returns what the program prints, its status and its message, where a read gives a piece."""
    # A read of a socket of this kind gives exactly what was sent at once.
    ours, theirs = socket.socketpair(socket.AF_UNIX, socket.SOCK_SEQPACKET)
    with ours:
        with theirs:
            process = subprocess.Popen(
                [program], stdin=theirs, stdout=subprocess.PIPE, stderr=subprocess.PIPE)
        try:
            for piece in pieces:
                ours.sendall(piece)
        except (BrokenPipeError, ConnectionResetError):
            # The program refused the document and ended.
            pass
    output, message = process.communicate()
    return output, process.returncode, message


def compare(program, make, special, answer, seed, numbers):
    """Returns how often each outcome came, and the first documents that nothing explains."""
    counts, unexplained = collections.Counter(), []
    for number in numbers:
        document, pieces = document_at(make, special, seed, number)
        wanted, said = answer(document), printed(program, pieces)
        counts["accepted" if said[1] == 0 else "refused"] += 1
        if said[1] == wanted.status and wanted.output in (None, said[0]):
            counts[wanted.rule] += wanted.rule is not None
        else:
            counts["unexplained"] += 1
            if len(unexplained) < PRINTED:
                unexplained.append((number, document, pieces, said, wanted))
    return counts, unexplained


def compare_share(share):
    """Compares a share of the documents, as a process of the pool is asked to."""
    return compare(*share)


def report(counts, unexplained, rules, seconds):
    """Prints the unexplained documents and the line of counts, and returns the exit status."""
    for number, document, pieces, (output, status, message), wanted in unexplained[:PRINTED]:
        print(f"document {number}: {document!r}")
        print(f"  in pieces of {[*map(len, pieces)]} bytes")
        print(f"  makes the program print {output!r} with status {status}: {message!r}")
        print(f"  but it must print {wanted.output!r} with status {wanted.status}")
    by_rule = "; ".join(f"{counts[rule]} differing by rule ({rule})" for rule in rules)
    print(f"{counts['accepted'] + counts['refused']} documents: {counts['accepted']} accepted, "
          f"{counts['refused']} refused; {by_rule}; {counts['unexplained']} unexplained; "
          f"{seconds:.0f} s")
    return 1 if counts["unexplained"] else 0


def run(name, make, special, answer, rules, usual_count):
    """Compares the documents that the command line asks for, and returns the exit status."""
    words = sys.argv[1:]
    if len(words) > 2 or not all(word.isdecimal() for word in words):
        print(sys.modules["__main__"].__doc__, file=sys.stderr)
        return 1
    count, seed = [*map(int, words), *(usual_count, 1)[len(words):]]
    program = built_program(name)
    began = time.monotonic()
    shares = [(program, make, special, answer, seed, range(first, min(first + SHARE, count)))
              for first in range(0, count, SHARE)]
    counts, unexplained = collections.Counter(), []
    with multiprocessing.get_context("fork").Pool(PROCESSES) as pool:
        for some, few in pool.imap(compare_share, shares):
            counts.update(some)
            unexplained.extend(few)
    return report(counts, unexplained, rules, time.monotonic() - began)
