"""Times the shared map beside Rust's `BTreeMap`, in one program, and counts the allocations of an insertion.

    python3 benches/bench_shared_map.py [--store]

It builds the crate `bench_shared_map` as a static library, and runs shared_map/main.rs over it. It needs `rustc`. The ratios are
those of the table to `BTreeMap` for the most keys, and the allocations.
"""
import os
import re
import subprocess
import sys

from shared import BENCHES
from shared.ratios import Ratios, with_store

from lib.programs import CRATES, arguments

CRATE = os.path.join(CRATES, "bench_shared_map")
OUT = os.path.join(CRATE, "out")
PROGRAM = os.path.join(OUT, "shared_map")
ROW = re.compile(r"^\| (.+?) \| \d+ \| \d+ \| ([\d.]+) \|$", re.M)
ALLOCATIONS = re.compile(r"^keys (.+): height \d+, allocations for each insertion ([\d.]+)$", re.M)


def build():
    subprocess.run(["rt", "lib", "--jobs", "1"], cwd=CRATE, check=True, stdout=sys.stderr)
    source = os.path.join(BENCHES, "shared_map", "main.rs")
    options = ["--edition", "2024", "-C", "opt-level=3", "-C", "target-cpu=x86-64-v2"]
    library = ["-L", "native=" + OUT, "-l", "static=bench_shared_map"]
    subprocess.run(["rustc", *options, source, "-o", PROGRAM, *library], check=True)


def main():
    given = with_store(arguments(__doc__)).parse_args()
    build()
    output = subprocess.run([PROGRAM], capture_output=True, text=True, check=True).stdout
    print(output)
    ratios = Ratios("shared_map", given)
    last = output[output.rindex(" keys\n") :]
    for name, ratio in ROW.findall(last):
        ratios.add("%s at 100,000 keys, of `BTreeMap`" % name, float(ratio))
    for order, count in ALLOCATIONS.findall(last):
        ratios.add("allocations of an insertion at 100,000 keys %s" % order, float(count))
    return ratios.report()


if __name__ == "__main__":
    sys.exit(main())
