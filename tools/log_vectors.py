#!/usr/bin/env python3
"""The stored logs of compare/vectors as one stream, for a program that replays each and compares what it would write.

    tools/log_vectors.py                  write crates/vectors/stdin and stdout
    tools/log_vectors.py --check          only say whether they are what it would write
    tools/log_vectors.py --to FOLDER      write them somewhere else

The stream is a row of records. A record begins with three lengths of four bytes, big-endian: of a name, of an event log
and of the lines that 'trace' has to write of it. The three follow in that order, and then the next record. All of a
record but the lengths has at most 60 KiB; a stored log that needs more is left out and named.

The program writes 'NAME: line N' for each log whose lines are not those expected, N being the first line that is
another (one behind the last, where only that is missing), and at the end 'N logs agree, M differ'. The last record is
example A with a wrong digit in its third line: a program that compares nothing does not find it.
"""

import sys
from pathlib import Path

MOST = 60 * 1024
WRONG = "deliberately wrong"

repository = Path(__file__).resolve().parent.parent


def stored(text):
    """Of each log of a file: its name, its bytes and its lines. The supplied Rust's lines (~) are not ours to write."""
    logs = []
    for line in text.splitlines():
        mark, _, rest = line.partition(" ")
        if mark == "#":
            name = rest.partition(": ")[0].removesuffix(" (domain)")
            logs.append((name, bytearray(), bytearray()))
        elif mark == ">":
            logs[-1][1].extend(bytes.fromhex(rest))
        elif mark == "=":
            logs[-1][2].extend(rest.encode() + b"\n")
        elif mark != "~":
            sys.exit(f"no line of a stored log: {line[:60]}")
    return [(name, bytes(log), bytes(lines)) for name, log, lines in logs]


def spoilt(log):
    """The same log, expected to write another digit in its third line: the last digit of the value."""
    _, events, lines = log
    kept = lines.split(b"\n")
    fields = kept[2].split(b" ")
    assert fields[:3] == [b"3", b"0", b"S"] and fields[3].endswith(b"0")
    fields[3] = fields[3][:-1] + b"1"
    kept[2] = b" ".join(fields)
    return WRONG, events, b"\n".join(kept)


def record(name, log, lines):
    parts = (name.encode("ascii"), log, lines)
    return b"".join(len(part).to_bytes(4, "big") for part in parts) + b"".join(parts)


def main(words):
    folder = repository / "crates" / "vectors"
    if words[:1] == ["--to"] and len(words) == 2:
        folder = Path(words[1])
    elif words not in ([], ["--check"]):
        sys.exit(__doc__)
    logs = []
    for file in sorted((repository / "compare" / "vectors").glob("*.txt")):
        logs += stored(file.read_text())
    names = [name for name, _, _ in logs]
    assert len(set(names)) == len(names) and WRONG not in names
    fits = lambda parts: sum(map(len, parts)) <= MOST
    kept = [log for log in logs if fits(log)]
    example_a = next(log for log in logs if log[0] == "example-a")
    stdin = b"".join(record(*log) for log in kept + [spoilt(example_a)])
    stdout = f"{WRONG}: line 3\n{len(kept)} logs agree, 1 differ\n".encode()
    for name, text in (("stdin", stdin), ("stdout", stdout)):
        if words != ["--check"]:
            folder.mkdir(parents=True, exist_ok=True)
            (folder / name).write_bytes(text)
        elif not (folder / name).exists() or (folder / name).read_bytes() != text:
            sys.exit(f"vectors/{name} is not what this script writes")
    for name, log, lines in logs:
        if not fits((name, log, lines)):
            print(f"left out: {name}, a log of {len(log)} bytes with {len(lines)} bytes of lines")
    lines = sum(text.count(b"\n") for _, _, text in kept)
    largest = max(sum(map(len, log)) for log in kept)
    print(f"{len(kept)} logs and a wrong one, {lines} lines, {len(stdin)} bytes, the largest record {largest}")


if __name__ == "__main__":
    main(sys.argv[1:])
