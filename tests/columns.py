"""tests/columns.py PROGRAM   what `check` reports of a bad line, for tests/program.bats

The column is that of the first byte with which no good line begins: of lines that are changed at each place, where a
byte is put in, added or taken away. What else is reported is compared with a model, of these lines and of longer ones
(tests/facts_check).
"""
import functools
import os
import re
import subprocess
import sys

TOP = os.path.dirname(os.path.dirname(os.path.abspath(__file__)))
sys.path.insert(0, os.path.join(TOP, "tools"))
from formats import FIELDS, LIMITS, WORDS, said  # noqa: E402

LAST, TICKS = LIMITS["LAST"], LIMITS["MAX_TICKS"]
FORMS = {word: FIELDS[word] for word in WORDS["script"]}
LONGEST = max((word + f" {LAST}" * len(fields) for word, fields in FORMS.items()), key=len).encode()
CHANGED = [f"{line}\n".encode() for section in ("script", "stream") for line in said(section, "example")]
CHANGED += [b"start 10 1 %d 7\n" % LAST, b"tick %d\n" % TICKS]
CHANGED += [b"tick %d\n" % (TICKS - 1), LONGEST + b"\n", b"\xef\xbb\xbfclose\n", b"tick 3\r\n", b"start 0 1 5 %d\n" % (LAST + 1)]
BYTES = b"\x00\t\r 0159:/-+aeorstSz\x7f\xef\xff"


def is_number(text, field):
    low, high = (1, TICKS) if field == "count" else (0, LAST)
    return re.fullmatch("0|[1-9][0-9]*", text) and low <= int(text) <= high


def is_good(line):
    word, *texts = line[:-1].decode("latin-1").split(" ")
    fields = FORMS.get(word)
    if line[-1:] != b"\n" or fields is None or len(fields) != len(texts):
        return False
    return all(map(is_number, texts, fields))


@functools.cache
def begins_line(front):
    """Whether some good line begins so: the rest of a word, or of a number, and fields may follow."""
    if any(form.encode().startswith(front) for form in FORMS) or is_good(front):
        return True
    return any(is_good(front + end + b" 1" * more + b"\n") for end in (b"", b"0", b"1") for more in range(6))


def column(line):
    return next((at + 1 for at in range(len(line)) if not begins_line(line[: at + 1])), len(line) + 1)


def changed():
    """The changed lines, those with a line end first."""
    made = {}
    for line in CHANGED:
        for at in range(len(line)):
            front, rest = line[:at], line[at:]
            made |= dict.fromkeys((front or rest, front + rest[1:]))
            for byte in BYTES:
                made |= dict.fromkeys((front + bytes([byte]) + rest, front + bytes([byte]) + rest[1:]))
    return sorted(made, key=lambda line: not line.endswith(b"\n"))


def longer():
    """Lines that go on behind the byte at fault, above the bytes of the longest good line."""
    for line in changed():
        if line.endswith(b"\n") and not is_good(line) and len(line) < 40:
            yield line[:-1] + b"1" * 200 + b"\n"
    for front in (b"x", b"start  ", b" ", b"stop 1 1 0", b"close 1", b"s", LONGEST, LONGEST + b"\r", LONGEST + b"x", LONGEST + b" 1", b"tick 1"):
        for more in (108, 200, 1000):
            yield front + front[-1:] * more + b"\n"
            yield front + b" 1" * more + b"\n"


def reports(program, script):
    """The column that is reported of each line, by its number."""
    done = subprocess.run([program, "check"], input=script, capture_output=True, check=False)
    return {int(number): int(at) for number, at in re.findall(rb"^line (\d+), column (\d+): ", done.stdout, flags=re.MULTILINE)}


def main(program):
    lines = [*longer(), *changed()]
    ended = [line for line in lines if line.endswith(b"\n")]
    told = []
    for part in (ended[at : at + 2000] for at in range(0, len(ended), 2000)):  # a script has a MiB at most
        found = reports(program, b"".join(part))
        told += [found.get(number) for number in range(1, len(part) + 1)]
    told += [reports(program, line).get(1) for line in lines[len(ended) :]]
    wrong = [(line[:60], at) for line, at in zip(lines, told) if at != (None if is_good(line) else column(line))]
    print(f"{len(lines)} lines, {len(wrong)} wrong columns", *wrong[:10], sep="\n")
    sys.exit(bool(wrong))


if __name__ == "__main__":
    main(sys.argv[1])
