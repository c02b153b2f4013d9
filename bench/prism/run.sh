#!/usr/bin/env bash
# Judges a shape of 10,000 points once and asks for 1,000, 100,000 and a million products with it, of one turn, whether
# they have a prism; the points of products are not made. Says the processor's time of the whole process, which
# indexes the file too, the fastest of seven, and what a product more costs. Goal: for 100,000 products at most twice the
# time for 1,000 and 1 µs for each. Then one product with a list of a million points of which ten are named, and of a
# tenth: memory for the text and the ten, time in proportion. Usage: bench/prism/run.sh, after `rt run` in crates/bench_prism has built the program.
set -eu
here=$(cd "$(dirname "${BASH_SOURCE[0]}")" && pwd)
work=$(mktemp -d)
trap 'rm -r "$work"' EXIT
python3 "$here/make_shape.py" 10000 > "$work/shape.ifc"
python3 "$here/make_shape.py" 1000000 10 > "$work/list.ifc"
python3 "$here/make_shape.py" 100000 10 > "$work/tenth.ifc"
python3 - "${1:-$here/../../crates/bench_prism/out/bench_prism}" "$work" <<'END_OF_PYTHON'
import os
import subprocess
import sys

program, work = sys.argv[1:]


def measured(name, products):
    """the processor's seconds, fastest of seven, and the peak of memory in bytes"""
    path = os.path.join(work, name)
    best = 1e9
    for _ in range(7):
        child = subprocess.Popen([program, path, str(products)], stdout=subprocess.PIPE, text=True)
        said = child.stdout.read().strip()
        _, status, used = os.wait4(child.pid, 0)
        child.returncode = status
        assert status == 0 and said == f"{products} of {products} products have a prism", said
        best = min(best, used.ru_utime + used.ru_stime)
    return best, used.ru_maxrss * 1024


few, _ = measured("shape.ifc", 1000)
for products in (1000, 100000, 1000000):
    time, peak = measured("shape.ifc", products)
    goal = 2 * few + products * 1e-6
    print(f"{products:8} products: {time:.4f} s of {goal:.4f} s, {peak / 1e6:.1f} MB", flush=True)
time, peak = measured("list.ifc", 1)
size = os.path.getsize(os.path.join(work, "list.ifc"))
tenth, _ = measured("tenth.ifc", 1)
print(f"list of {size / 1e6:.1f} MB: {time:.3f} s, {time / tenth:.1f} times a tenth, peak {peak / size:.2f} times the file", flush=True)
END_OF_PYTHON
