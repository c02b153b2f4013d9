#!/usr/bin/env python3
"""Write an exchange text of one odd shape, to time what reads it and to see what memory it takes.

usage: make_shapes.py SHAPE FILE [MEGABYTES]

MEGABYTES are 10^6 bytes, 16 by default.
"""
import sys

BEGIN = "ISO-10303-21;HEADER;"
DATA = "A();ENDSEC;DATA;"
TAIL = "ENDSEC;END-ISO-10303-21;"


SHAPES = {
    # shape: what stands before, what is repeated, and what stands behind
    "header entities": (BEGIN, "A();", "ENDSEC;DATA;" + TAIL),
    "schemas": (BEGIN, "FILE_SCHEMA(('IFC4'));", "ENDSEC;DATA;" + TAIL),
    "tiny instances": (BEGIN + DATA, "#1=A();", TAIL),
    "tiny instances, falling": (BEGIN + DATA, "#3=A();#2=A();#1=A();", TAIL),
    "complex instances": (BEGIN + DATA, "#1=(A());", TAIL),
    "one long string": (BEGIN + DATA + "#1=A('", "x", "');" + TAIL),
    "apostrophes": (BEGIN + DATA + "#1=A('", "''", "');" + TAIL),
    "nested lists": (BEGIN + DATA + "#1=A($", "," + "(" * 60 + ")" * 60, ");" + TAIL),
    "empty lists": (BEGIN + DATA + "#1=A($", ",()", ");" + TAIL),
    "typed": (BEGIN + DATA + "#1=A($", "," + "A(" * 60 + "1" + ")" * 60, ");" + TAIL),
    "comments alone": ("", "/**/", ""),
    "blanks alone": ("", " \n", ""),
    "one long comment": (BEGIN + DATA + "/*", "*x", "*/" + TAIL),
    "numbers alone": (BEGIN + DATA + "#1=A(1", ",1", ");" + TAIL),
    "one long number": (BEGIN + DATA + "#1=A(", "1", ");" + TAIL),
    "one long keyword": (BEGIN + DATA + "#1=", "A", "();" + TAIL),
    "zeros before a name": (BEGIN + DATA + "#", "0", "1=A();" + TAIL),
}


def main(shape, path, megabytes=16.0):
    before, piece, behind = SHAPES[shape]
    left = int(megabytes * 1_000_000) - len(before) - len(behind)
    with open(path, "w", encoding="ascii", newline="\n") as out:
        out.write(before)
        out.write(piece * (left // len(piece)))
        out.write(behind)


if __name__ == "__main__":
    if not 3 <= len(sys.argv) <= 4 or sys.argv[1] not in SHAPES:
        sys.exit(__doc__ + "\nshapes: " + ", ".join(SHAPES))
    main(sys.argv[1], sys.argv[2], *(float(word) for word in sys.argv[3:4]))
