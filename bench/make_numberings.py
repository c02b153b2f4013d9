#!/usr/bin/env python3
"""Write an exchange text whose instances are numbered in some way, to time what finds them.

usage: make_numberings.py NUMBERING FILE PLAIN [MEGABYTES] [SEED]

Each instance refers to the one before it. FILE has as many instances as its size and its numbers
allow; where the numbers are few, each instance has a string that fills it up. PLAIN is the same
text, byte for byte as long, numbered 1 to n: its numbers have zeros before them.
MEGABYTES are 10^6 bytes, 16 by default.
"""
import random
import sys

HEAD = "ISO-10303-21;HEADER;FILE_SCHEMA(('IFC4'));ENDSEC;DATA;\n"
TAIL = "ENDSEC;END-ISO-10303-21;\n"
GREATEST = 4_294_967_295


def strided(stride, first=1):
    return lambda n, dice: list(range(first, GREATEST + 1, stride))[:n]


def shuffled(n, dice):
    numbers = list(range(1, n + 1))
    dice.shuffle(numbers)
    return numbers


def blocks(n, dice):
    """four runs, the first of each 10,000,000 behind the first of the one before"""
    each = n // 4
    return [10_000_000 * block + i for block in range(4) for i in range(1, each + 1)]


def turning_blocks(n, dice):
    """the same, one of each in turn, the highest block first"""
    each = n // 4
    return [10_000_000 * block + i for i in range(1, each + 1) for block in (3, 1, 2, 0)]


def pipes(n, dice):
    """the odd numbers up, then the even ones down"""
    return list(range(1, n + 1, 2)) + list(range(n - n % 2, 0, -2))


def saws(n, dice):
    """a thousand runs, each over the whole range"""
    return [first + 1000 * i for first in range(1, 1001) for i in range(n // 1000)]


def twisted(n, dice):
    """the bits of the place turned round, so that no stretch is in order"""
    bits = max(1, (n - 1).bit_length())
    turned = [0]
    for bit in range(bits):
        turned = [2 * t for t in turned] + [2 * t + 1 for t in turned]
    return [t + 1 for t in turned if t < n]


NUMBERINGS = {
    "descending": lambda n, dice: list(range(n, 0, -1)),
    "shuffled": shuffled,
    "blocks": blocks,
    "turning-blocks": turning_blocks,
    "stride-2^12": strided(1 << 12),
    "stride-2^20": strided(1 << 20),
    "stride-999983": strided(999_983),
    "low-16-bits": lambda n, dice: strided(1 << 16, 4711)(n, dice)[::-1],
    "pipes": pipes,
    "saws": saws,
    "twisted": twisted,
}


def write(path, names, filler):
    with open(path, "w", encoding="ascii", newline="\n") as out:
        out.write(HEAD)
        behind = f"{filler});\n"
        before = names[-1]
        piece = []
        for name in names:
            piece.append(f"#{name}=A(#{before}{behind}")
            before = name
            if len(piece) == 100_000:
                out.write("".join(piece))
                piece = []
        out.write("".join(piece))
        out.write(TAIL)


def main(numbering, path, plain, megabytes=16.0, seed=1):
    size = int(megabytes * 1_000_000) - len(HEAD) - len(TAIL)
    count = size // 20
    for _ in range(4):
        numbers = NUMBERINGS[numbering](count, random.Random(seed))
        digits = sum(len(str(number)) for number in numbers)
        used = 2 * digits + len(numbers) * len("#=A(#);\n")
        if used < size and len(numbers) < 0.9 * count:
            break
        count = int(len(numbers) * size / used) - 1
    room = max(0, size - used) // len(numbers) - len(",''")
    filler = f",'{'x' * room}'" if room > 0 else ""
    names = [str(number) for number in numbers]
    write(path, names, filler)
    write(plain, [str(i + 1).zfill(len(name)) for i, name in enumerate(names)], filler)
    print(len(numbers))


if __name__ == "__main__":
    if not 4 <= len(sys.argv) <= 6 or sys.argv[1] not in NUMBERINGS:
        sys.exit(__doc__ + "\nnumberings: " + " ".join(NUMBERINGS))
    main(*sys.argv[1:4], *(float(w) for w in sys.argv[4:5]), *(int(w) for w in sys.argv[5:6]))
