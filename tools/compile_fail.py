#!/usr/bin/env python3
"""Holds the cases of crates/ledger/compile-fail to the compiler: each must fail with exactly the error it names,
and the control must compile. The first line of a case says what to expect, the code follows a line of dashes."""
import pathlib
import re
import shutil
import subprocess
import sys
import tempfile

CRATES = pathlib.Path(__file__).resolve().parent.parent / "crates"
CASES = CRATES / "ledger/compile-fail"


def errors_of(case):
    """The named errors of the crate with the case appended, and its status."""
    with tempfile.TemporaryDirectory() as folder:
        crates = pathlib.Path(folder) / "crates"
        leave = shutil.ignore_patterns("out", "must-fail", "compile-fail")
        for name in ("refusals", "ledger"):
            shutil.copytree(CRATES / name, crates / name, ignore=leave)
        (pathlib.Path(folder) / "crates.txt").write_text("refusals:\nledger: refusals\n")
        crate = crates / "ledger"
        source = crate / "src/lib.rt"
        source.write_text(source.read_text() + "\n" + case)
        run = subprocess.run(["rt", "check"], cwd=crate, stdout=subprocess.PIPE, stderr=subprocess.STDOUT, text=True, check=False)
        return run.returncode, re.findall(r"error\[([a-z0-9-]+)\]", run.stdout)


def main():
    failed = 0
    for path in sorted(CASES.glob("*.txt")):
        head, case = path.read_text().split("\n---\n", 1)
        expected = head.removeprefix("expect: ").strip()
        status, errors = errors_of(case)
        good = (status == 0 and not errors) if expected == "compiles" else (status == 1 and errors == [expected])
        failed += not good
        print(f"compile-fail {path.stem}: {'as expected, ' + expected if good else f'expected {expected}, status {status}, {errors}'}")
    sys.exit(1 if failed else 0)


if __name__ == "__main__":
    main()
