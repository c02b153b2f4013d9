#!/bin/sh
# Times bench_tokens, which reads a file and counts its tokens, against the bare scan of the same bytes:
# fastest of seven runs, the whole process with its start and reading.
# usage: bench/tokens.sh [MEGABYTES], after `rt run` in crates/bench_tokens has built the program.
set -eu
here=$(cd "$(dirname "$0")" && pwd)
work=$(mktemp -d)
trap 'rm -rf "$work"' EXIT
python3 "$here/make_instances.py" "$work/instances.ifc" "${1:-60}"
gcc -O2 -o "$work/bare_scan" "$here/bare_scan.c"
python3 - "$here/../crates/bench_tokens/out/bench_tokens" "$work/bare_scan" "$work/instances.ifc" <<'END'
import os
import subprocess
import sys
import time

count, scan, path = sys.argv[1:]


def fastest(turns):
    best = None
    for _ in range(turns):
        start = time.perf_counter()
        said = subprocess.run([count, path], capture_output=True, text=True, check=True).stdout.strip()
        took = time.perf_counter() - start
        best = took if best is None else min(best, took)
    return best, said


took, said = fastest(7)
bare = min(float(subprocess.check_output([scan, path]).split()[0]) for _ in range(3))
print(f"{os.path.getsize(path)} bytes, {said}")
print(f"reading and tokens {took:.3f} s, bare scan {bare:.3f} s, ratio {took / bare:.2f}")
END
