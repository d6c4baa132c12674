#!/usr/bin/env python3
"""Writes the worked session of the service: crates/wesqallun/stdin, stdout and data/.

Every expected reply is written here by hand from the rules, beside the line that asks for it; nothing is taken from a run.
"""
import os
import shutil
import struct

ROOT = os.path.join(os.path.dirname(os.path.abspath(__file__)), "..", "crates", "wesqallun")
lines, replies = [], []


def say(line, reply):
    lines.append(line if isinstance(line, bytes) else line.encode())
    replies.append(reply)


def forms(*records):
    return (1, b"".join(bytes(r) for r in records))


def modes(*rows, n=None):
    """Rows of (atoms, offsets) or (atoms, offsets, d)."""
    body = struct.pack("<H", len(rows) if n is None else n)
    for row in rows:
        atoms, offsets = row[0], list(row[1])
        d = row[2] if len(row) > 2 else len(offsets)
        body += struct.pack("<IB8h", atoms, d, *(offsets + [0] * (8 - len(offsets))))
    return (2, body)


def tree(at, *steps):
    return (3, struct.pack("<Q", at) + b"".join(bytes(s + (0,) * (3 - len(s))) for s in steps))


def file(name, *parts, count=None, extra=b""):
    data = bytes([len(parts) if count is None else count])
    data += b"".join(bytes([kind]) + struct.pack("<I", len(body)) for kind, body in parts)
    data += b"".join(body for _, body in parts) + extra
    raw(name, data)
    return data


def raw(name, data):
    with open(os.path.join(ROOT, "data", name), "wb") as f:
        f.write(data)


T = [(0, 0, 0), (1, 0, 0), (2, 0, 0), (3, 0, 0), (9, 0, 2), (10, 1, 3), (7, 4, 0), (6, 5, 0)]
REFUTED = [(6, 4), (5, 5, 7), (2, 1), (5, 4, 6), (1, 2, 3), (7, 7), (5, 5, 7), (2, 1), (8, 3)]
TWO_ROWS = modes((0, [0, 1]), (1, [0]))


def fill_table():
    say("C", "ok 0")
    for number, (kind, a, b) in enumerate(T):
        say(f"F {kind} {a} {b}", f"ok {number}")


def the_forms():
    say("F 2 0 0", "ok 0")
    say("F 4 0 5", "no 3")
    say("C", "ok 0")
    say("Q 48", "ok 0")
    say("F 300 0 0", "no 20")
    for line, reply in [
        ("F 12 0 0", "no 1"), ("F 255 0 0", "no 1"), ("F 2 32 0", "no 2"), ("F 3 255 9", "no 2"),
        ("F 2 31 0", "ok 0"), ("F 3 0 200", "ok 1"), ("F 0 7 7", "ok 2"), ("F 1 255 255", "ok 3"),
        ("F 4 0 1", "ok 4"), ("F 5 1 0", "ok 5"), ("F 6 5 99", "ok 6"), ("F 7 6 0", "ok 7"),
        ("F 8 0 7", "ok 8"), ("F 9 8 0", "ok 9"), ("F 10 9 9", "ok 10"), ("F 11 10 0", "ok 11"),
        ("F 4 12 0", "no 3"), ("F 5 0 12", "no 3"), ("F 6 12 0", "no 3"), ("F 7 64 0", "no 3"),
        ("F 8 0 12", "no 3"), ("F 9 12 0", "no 3"), ("F 10 0 255", "no 3"), ("F 11 12 12", "no 3"),
    ]:
        say(line, reply)
    for number in range(12, 63):
        say("F 0 0 0", f"ok {number}")
    say("F 4 62 61", "ok 63")
    for line, reply in [("F 0 0 0", "no 21"), ("F 12 0 0", "no 1"), ("F 2 32 0", "no 2"), ("F 4 64 0", "no 3"), ("F 4 63 63", "no 21")]:
        say(line, reply)
    say("C", "ok 0")
    say("F 6 0 0", "no 3")
    say("F 0 0 0", "ok 0")


def the_lines():
    for line, reply in [
        ("Q 0", "ok 0"), ("Q 18446744073709551615", "ok 0"), ("Q 18446744073709551616", "no 20"), ("Q 99999999999999999999", "no 20"),
        ("Q 000", "ok 0"), ("F 002 0031 0", "ok 1"), ("F 256 0 0", "no 20"), ("F 0 256 0", "no 20"), ("F 0 0 256", "no 20"),
        ("F 0 0 18446744073709551616", "no 20"), ("N 256 0 0", "no 20"), ("N 1 0 300", "no 20"),
        ("Q +1", "no 20"), ("Q -1", "no 20"), ("Q 0x1", "no 20"), ("Q 1a", "no 20"), ("Q", "no 20"), ("Q ", "no 20"), ("Q 1 2", "no 20"), ("Q 1 ", "no 20"),
        (" Q 1", "no 20"), ("Q  1", "no 20"), ("Q\t1", "no 20"), ("Q1", "no 20"), ("q 1", "no 20"),
        ("F 0 0", "no 20"), ("F 0 0 0 0", "no 20"), ("F  0 0 0", "no 20"), ("F 0  0 0", "no 20"),
        ("C 0", "no 20"), ("C ", "no 20"), ("c", "no 20"), ("", "no 20"), ("X", "no 20"), ("Q 1\r", "no 20"), ("C\r", "no 20"),
        ("O", "no 20"), ("O 1 1", "no 20"), ("N 1 0", "no 20"), ("E 0", "no 20"), ("A 0", "no 20"), ("S", "no 20"), ("S 0 0", "no 20"), ("H 0", "no 20"), ("H 0 0 0", "no 20"), ("R", "no 20"),
        (b"\xff\xfe", "no 20"), (b"Q \xc3\xa9", "no 20"), (b"Q \x00", "no 20"),
        # 100 bytes and 101
        ("Q " + "0" * 97 + "7", "ok 0"), ("Q " + "0" * 98 + "7", "no 20"), ("Q " + "0" * 300, "no 20"),
        ("F " + "0" * 93 + "0 0 0", "ok 2"), ("F " + "0" * 94 + "0 0 0", "no 20"),
        ("R " + "a" * 98, "no 14 0 0"), ("R " + "a" * 99, "no 20"),
    ]:
        say(line, reply)


def the_walk():
    say("C", "ok 0")
    for line, reply in [
        ("F 2 0 0", "ok 0"), ("F 3 0 0", "ok 1"), ("F 4 0 1", "ok 2"), ("O 4", "ok 1"), ("N 3 2 0", "ok 1"), ("N 1 0 1", "ok 0"), ("E", "ok 0"), ("Q 4", "ok 1"),
        # nothing is present now
        ("E", "no 23"), ("A", "no 23"), ("N 1 0 1", "no 23"), ("N 9 0 0", "no 23"), ("O 8", "no 4"),
        # a set that stands can be walked again, and not entered
        ("O 4", "ok 1"), ("O 4", "no 24"), ("O 8", "no 4"), ("N 0 2 0", "no 6"), ("N 9 2 0", "no 6"), ("N 3 0 0", "no 7"), ("N 3 64 0", "no 7"), ("N 2 2 0", "no 8"),
        ("N 8 1 0", "no 9"), ("N 8 0 0", "no 9"), ("E", "no 25"), ("N 3 2 0", "ok 1"), ("N 1 1 0", "no 8"), ("N 1 0 2", "no 7"), ("N 1 0 1", "ok 0"),
        ("N 1 0 1", "no 26"), ("N 9 0 0", "no 26"), ("E", "no 28"), ("E", "no 28"), ("O 4", "no 24"), ("A", "ok 0"), ("A", "no 23"),
        ("S 1", "no 29"), ("S 18446744073709551615", "no 29"), ("S 0", "ok 0"), ("Q 4", "ok 0"), ("S 0", "no 29"),
    ]:
        say(line, reply)
    # a path of 256 goals, root and goal counted, and one more; a closing step is taken at the 256th
    say("C", "ok 0")
    say("F 1 0 0", "ok 0")
    say("F 0 0 0", "ok 1")
    say("F 8 1 1", "ok 2")
    say("O 5", "ok 1")
    for _ in range(255):
        say("N 6 2 0", "ok 1")
    for line, reply in [("N 6 2 0", "no 27"), ("N 6 1 0", "no 7"), ("N 6 0 0", "no 8"), ("N 8 1 0", "no 9"), ("E", "no 25"), ("N 2 0 0", "ok 0"), ("E", "ok 0"), ("Q 5", "ok 1")]:
        say(line, reply)
    # on all paths atom 0 comes, against: on some path it never does
    fill_table()
    say("O 48", "ok 1")
    for step, reply in zip(REFUTED, [1, 2, 1, 2, 1, 1, 2, 1, 0]):
        say("N " + " ".join(str(x) for x in step + (0,) * (3 - len(step))), f"ok {reply}")
    say("E", "ok 0")
    say("Q 48", "ok 1")
    # without the focus the repeat does not close
    say("O 48", "ok 1")
    for step, reply in zip(REFUTED[1:-1], [2, 1, 2, 1, 1, 2, 1]):
        say("N " + " ".join(str(x) for x in step + (0,) * (3 - len(step))), f"ok {reply}")
    say("N 8 3 0", "no 9")
    say("A", "ok 0")
    # a next form outside the table, or over the wrong successors, does not fit; 255 names no form; forms join during a walk
    for line, reply in [
        ("O 48", "ok 1"), ("N 5 5 200", "no 8"), ("N 5 5 6", "no 8"), ("N 5 4 7", "no 8"), ("N 7 5 0", "no 8"), ("F 0 0 0", "ok 8"), ("N 6 4 0", "ok 1"), ("N 6 5 0", "no 8"),
        ("N 7 255 0", "ok 1"), ("N 6 4 0", "no 7"), ("A", "ok 0"),
    ]:
        say(line, reply)


def the_book():
    # 64 sets with `false`, each refuted by one step
    fill_table()
    sets = [2 + (x & 1) + ((x >> 1) << 2) for x in range(66)]
    for place, at in enumerate(sets[:64]):
        say(f"O {at}", "ok 1")
        say("N 2 1 0", "ok 0")
        say("E", f"ok {place}")
    say(f"O {sets[64]}", "ok 1")
    say("N 2 1 0", "ok 0")
    say("E", "no 22")
    say("A", "ok 0")
    say(f"O {sets[3]}", "ok 1")
    say("N 2 1 0", "ok 0")
    say("E", "no 28")
    say("A", "ok 0")
    file("falsity", tree(sets[64], (2, 1)))
    say("R falsity", "no 22 0 1")
    # a show is refused by a full book only where its set does not stand
    say("R rows", "ok 1")
    say("H 1 0", "no 22")
    say(f"H {sets[3]} 0", "ok 1 4")
    say("H 256 0", "no 4")
    say("H 1 2", "no 5")
    # later lines move up
    say("S 0", "ok 0")
    say(f"Q {sets[0]}", "ok 0")
    say(f"Q {sets[63]}", "ok 1")
    say("S 63", "no 29")
    say("H 1 0", "ok 1 4")
    say("Q 1", "ok 2")
    say("S 63", "ok 63")
    say("Q 1", "ok 0")


def the_files():
    file("good", forms(*T), TWO_ROWS, tree(48, *REFUTED))
    file("rows", TWO_ROWS)
    say("C", "ok 0")
    for line, reply in [
        ("R good", "ok 3"), ("Q 48", "ok 1"), ("F 0 0 0", "ok 8"),
        # the marks are 169 and 85, in 4 rounds
        ("H 48 0", "ok 32 4"), ("Q 32", "ok 0"), ("H 16 1", "ok 16 4"), ("Q 16", "ok 2"), ("H 16 0", "ok 0 4"), ("H 255 1", "ok 85 4"), ("H 0 0", "ok 0 4"), ("Q 0", "ok 2"),
        ("H 512 0", "no 4"), ("H 512 9", "no 4"), ("H 1 2", "no 5"), ("H 1 18446744073709551615", "no 5"),
        # the sheet outlives a clear, and a refusal with 20; another read forgets it
        ("C", "ok 0"), ("H 0 1", "ok 0 0"), ("R", "no 20"), ("H 0 1", "ok 0 0"), ("R nothing", "no 14 0 0"), ("H 0 0", "no 31"), ("H 9 9", "no 31"), ("H 9", "no 20"),
        ("R ", "no 14 0 0"), ("R .", "no 14 0 0"), (b"R \xff\xfe", "no 14 0 0"), (b"R a\x00b", "no 14 0 0"), ("R  good", "no 14 0 0"), ("R good ", "no 14 0 0"),
    ]:
        say(line, reply)
    # the same forms join twice; the set stands already, so the tree is refused at its enter
    for line, reply in [("C", "ok 0"), ("R good", "ok 3"), ("R good", "no 28 2 9"), ("F 0 0 0", "ok 16"), ("A", "no 23"), ("H 48 0", "ok 32 8")]:
        say(line, reply)


def the_damaged_files():
    say("C", "ok 0")

    def try_file(name, reply, *parts, **more):
        file(name, *parts, **more)
        say("R " + name, reply)

    # the file's shape
    raw("empty", b"")
    say("R empty", "no 14 0 0")
    raw("count0", b"\x00")
    say("R count0", "no 14 0 0")
    raw("short", b"\x01\x01\x00\x00\x00")
    say("R short", "no 14 0 0")
    try_file("parts16", "ok 16", *[forms()] * 16)
    try_file("parts17", "no 14 0 0", *[forms()] * 17)
    data = file("most", forms(*[(0, 0, 0)] * 21841), (2, b"\x00\x00"))
    assert len(data) == 65536
    say("R most", "no 21 0 64")
    data = file("more", forms(*[(0, 0, 0)] * 21841), (2, b"\x00\x00\x00"))
    assert len(data) == 65537
    say("R more", "no 14 0 0")
    say("F 0 0 0", "ok 0")
    # kinds and lengths
    try_file("kind0", "no 15 0 0", (0, b""), forms())
    try_file("kind4", "no 15 1 0", forms(), (4, b""), (0, b""))
    try_file("kindlong", "no 15 1 0", forms(), (4, b""), extra=b"x")
    try_file("long", "no 16 0 0", forms(), extra=b"x")
    raw("lacks", b"\x01\x01\x03\x00\x00\x00\x00\x00")
    say("R lacks", "no 16 0 0")
    raw("huge", b"\x02\x01\xff\xff\xff\xff\x01\xff\xff\xff\xff")
    say("R huge", "no 16 0 0")
    # forms bodies: a refused one leaves the table, an earlier part stays
    try_file("forms17", "no 17 0 0", (1, b"\x00\x00\x00\x00"))
    try_file("forms1", "no 1 0 2", forms((0, 0, 0), (1, 0, 0), (12, 0, 0)))
    say("F 0 0 0", "ok 1")
    try_file("forms2", "no 2 1 0", forms((0, 0, 0)), forms((3, 32, 0)))
    say("F 0 0 0", "ok 3")
    try_file("forms3", "no 3 0 1", forms((0, 0, 0), (6, 5, 0)))
    say("F 0 0 0", "ok 4")
    try_file("forms21", "no 21 0 59", forms(*[(0, 0, 0)] * 60))
    try_file("forms59", "ok 1", forms(*[(0, 0, 0)] * 59))
    say("F 0 0 0", "no 21")
    # modes bodies: the row is the record; a sheet before a refusal stays
    for name, reply, part in [
        ("modes17a", "no 17 0 0", (2, b"")), ("modes17b", "no 17 0 0", (2, b"\x01")), ("modes10a", "no 10 0 0", (2, b"\x00\x00")),
        ("modes10b", "no 10 0 0", (2, b"\x01\x04")), ("modes17c", "no 17 0 0", (2, TWO_ROWS[1][:-1])), ("modes17d", "no 17 0 0", (2, TWO_ROWS[1] + b"\x00")),
        ("modes11a", "no 11 0 1", modes((0, [0]), (0, [], 0))), ("modes11b", "no 11 0 0", modes((0, [0], 9), (0, [9]))),
        ("modes12a", "no 12 0 0", modes((0, [-1]))), ("modes12b", "no 12 0 1", modes((0, [1]), (0, [-1, 2]), (0, [], 0))),
        ("modes12c", "no 12 0 2", modes((0, [2]), (0, [-1]), (0, [0, -2, -3]))),
    ]:
        try_file(name, reply, part)
        say("H 0 0", "no 31")
    try_file("unread", "ok 1", modes((0, [0, 9, -9], 1)))
    say("H 0 0", "ok 0 0")
    try_file("sheetstays", "no 12 1 0", TWO_ROWS, modes((0, [-1])))
    say("H 0 1", "ok 0 0")
    try_file("rows1024", "ok 1", modes(*[(0, [1])] * 1023 + [(1, [-1023])]))
    say("H 0 1023", "ok 0 0")
    say("H 0 1024", "no 5")
    # tree bodies: a step is a record, open is record 0, enter the one after the last step
    fill_table()
    for name, reply, part in [
        ("tree17a", "no 17 0 0", (3, b"\x00" * 7)), ("tree17b", "no 17 0 0", (3, b"\x00" * 9)), ("tree4", "no 4 0 0", tree(256)),
        ("tree25", "no 25 0 0", tree(48)), ("treecut", "no 25 0 8", tree(48, *REFUTED[:-1])), ("tree26", "no 26 0 9", tree(48, *REFUTED + [(2, 1)])),
        ("tree6", "no 6 0 1", tree(48, (6, 4), (9, 0))), ("tree7", "no 7 0 0", tree(48, (2, 1))), ("tree8", "no 8 0 1", tree(48, (6, 4), (6, 5))),
        ("tree9", "no 9 0 7", tree(48, *REFUTED[1:])), ("tree27", "no 27 0 255", tree(48, *[(6, 4)] * 256)),
    ]:
        try_file(name, reply, part)
        say("A", "no 23")
    file("tree", tree(48, *REFUTED))
    for line, reply in [
        ("Q 48", "ok 0"), ("O 48", "ok 1"), ("R tree", "no 24 0 0"), ("N 6 4 0", "ok 1"), ("A", "ok 0"),
        ("R tree", "ok 1"), ("Q 48", "ok 1"), ("R tree", "no 28 0 9"), ("S 0", "ok 0"), ("R tree", "ok 1"), ("Q 48", "ok 1"),
    ]:
        say(line, reply)
    # a refused set beyond the table comes before a walk that is present
    say("O 48", "ok 1")
    say("R tree4", "no 4 0 0")
    say("A", "ok 0")


def main():
    data = os.path.join(ROOT, "data")
    shutil.rmtree(data, ignore_errors=True)
    os.makedirs(data)
    file("rows", TWO_ROWS)
    say("H 0 0", "no 31")
    the_forms()
    the_lines()
    the_walk()
    the_book()
    the_files()
    the_damaged_files()
    say("Q 48", "ok 1")  # the last line lacks its line feed
    with open(os.path.join(ROOT, "stdin"), "wb") as f:
        f.write(b"\n".join(lines))
    with open(os.path.join(ROOT, "stdout"), "w") as f:
        f.write("".join(reply + "\n" for reply in replies))


main()
