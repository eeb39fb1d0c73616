#!/usr/bin/env python3
"""Feeds a program every sheet of `reference.sheet_cases` and compares each byte that it prints with the reference.

    tools/compare_sheets.py PROGRAM
"""
import subprocess
import sys
from concurrent.futures import ThreadPoolExecutor
from itertools import chain
from os import cpu_count
from pathlib import Path

sys.path.insert(0, str(Path(__file__).resolve().parent.parent))

from reference.sheet import printed  # noqa: E402
from reference.sheet_cases import cases, short  # noqa: E402


def differs(program, sheet):
    """Whether the program prints something else than the reference, fails or writes an error. One that does not end raises."""
    done = subprocess.run([program], input=sheet, capture_output=True, timeout=60)
    return done.returncode != 0 or done.stderr != b'' or done.stdout != printed(sheet).encode()


def main():
    program = str(Path(sys.argv[1]).resolve())
    sheets = list(chain(cases(), short()))
    with ThreadPoolExecutor(cpu_count()) as pool:
        wrong = [sheet for sheet, bad in zip(sheets, pool.map(lambda sheet: differs(program, sheet), sheets)) if bad]
    for sheet in wrong[:10]:
        print(f'the program and the reference differ on the sheet {sheet.hex(" ")}', file=sys.stderr)
    print(f'{len(sheets)} sheets compared with the reference, {len(wrong)} differ')
    return 1 if wrong else 0


if __name__ == '__main__':
    sys.exit(main())
