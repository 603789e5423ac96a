"""Programs that are held against reference.py: which one, what it prints for a
script, and where that differs."""

import itertools
import os
import re
import subprocess
import sys
import tempfile

import reference
import stored

PATIENCE = 300


def named(words, usual):
    """The full path of the program that the first of the words names; without words, of the built one with the usual name."""
    program = os.path.abspath(words[0] if words else built(usual))
    if not os.access(program, os.X_OK):
        sys.exit("no program %s" % program)
    return program


def built(name):
    """Where the program of a crate is built."""
    done = subprocess.run([os.path.join(stored.ROOT, "tools", "program"), name], check=True, stdout=subprocess.PIPE, text=True)
    return done.stdout.rstrip("\n")


def from_file(program, data):
    """What the program prints for data that it reads from a file, and its status."""
    with tempfile.TemporaryFile() as file:
        file.write(data)
        file.seek(0)
        try:
            done = subprocess.run([program], stdin=file, stdout=subprocess.PIPE, timeout=PATIENCE)
        except subprocess.TimeoutExpired as late:
            return late.stdout or b"", -9
    return done.stdout, done.returncode


def first_difference(made, output):
    """The call whose answer is the first that the output does not hold."""
    book = reference.Book()
    start = 0
    for place, line in enumerate(made, start=1):
        answer = reference.answer_text(book, line).encode()
        if output[start : start + len(answer)] != answer:
            return "line %d of the script: %s\nthe reference: %s\nthe program:   %s" % (
                place, shown(line), shown(answer), shown(output[start : start + len(answer) + 20]))
        start += len(answer)
    return "after the last answer: %s" % shown(output[start:])


def shown(data):
    text = data[:300].decode("latin-1").encode("unicode_escape").decode()
    return "%s%s (%d bytes)" % (text, "..." if len(data) > 300 else "", len(data))


def answers(output):
    """The output in parts, one for each call."""
    return re.split(rb"^(?=ok|no |tags |frame )", output, flags=re.MULTILINE)


def differences(wanted, output):
    pairs = itertools.zip_longest(answers(wanted), answers(output))
    return sum(one != other for one, other in pairs)
