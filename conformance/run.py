#!/usr/bin/env python3
"""Tries a program with every sheet of the conformance kit, and says which text differs and where.

    conformance/run.py [--sheets FOLDER] [--seconds LIMIT] PROGRAM [ARGUMENT ..]

The sheet is the program's standard input. The program must print the expected text, byte for byte, and end by itself within
the limit with exit status 0. What it writes to standard error is not judged. The exit status is 0 if no sheet differs, else 1.
"""
import argparse
import io
import os
import select
import signal
import subprocess
import sys
from contextlib import suppress
from pathlib import Path
from time import monotonic


def read(pipe, most, deadline):
    """What comes through the pipe, up to its end or to that many bytes; TimeoutError at the deadline."""
    said = b''
    while len(said) < most:
        if not select.select([pipe], [], [], max(0, deadline - monotonic()))[0]:
            raise TimeoutError
        piece = os.read(pipe.fileno(), most - len(said))
        if not piece:
            break
        said += piece
    return said


def attempt(program, sheet, most, seconds):
    """What the program prints, up to that many bytes, and its exit status, None if it was stopped there; TimeoutError if it goes
    on too long. A program that goes on is ended, with all that it started in its process group."""
    deadline = monotonic() + seconds
    with sheet.open('rb') as standard_input:
        process = subprocess.Popen(program, stdin=standard_input, stdout=subprocess.PIPE, stderr=subprocess.DEVNULL,
                                   start_new_session=True)
    try:
        said = read(process.stdout, most, deadline)
        status = process.wait(max(0, deadline - monotonic())) if len(said) < most else None
    except subprocess.TimeoutExpired:
        raise TimeoutError from None
    finally:
        if process.returncode is None:
            with suppress(OSError):
                os.killpg(process.pid, signal.SIGKILL)
            process.wait()
        process.stdout.close()
    return said, status


def shown(line):
    """A line as it is shown: bytes that are not plain text escaped, and a long line cut."""
    return ascii(line.decode('latin-1'))[:100]


def difference(expected, said):
    """The first line that differs, or None."""
    expected, said = (io.BytesIO(text).readlines() for text in (expected, said))
    for number, (right, got) in enumerate(zip(expected, said), 1):
        if right != got:
            return f'line {number}: expected {shown(right)}, got {shown(got)}'
    if len(said) < len(expected):
        return f'line {len(said) + 1}: expected {shown(expected[len(said)])}, but the output is cut short'
    if len(said) > len(expected):
        return f'line {len(expected) + 1}: expected nothing more, got {shown(said[len(expected)])}'
    return None


def ending(status):
    """How the program ended, or None if it ended well."""
    if status is None:
        return 'stopped, since it prints far too much'
    if status < 0:
        return f'ended by signal {-status}'
    return f'exit status {status}' if status else None


def fault(program, sheet, seconds):
    """What is wrong with the program's run on a sheet, or nothing."""
    text = sheet.with_suffix('.expected')
    if not (sheet.is_file() and text.is_file()):
        return 'the kit is not whole: a sheet and its text belong together'
    expected = text.read_bytes()
    try:
        said, status = attempt(program, sheet, len(expected) + 1000, seconds)
    except TimeoutError:
        return f'no end within {seconds:g} seconds'
    return '; '.join(filter(None, (ending(status), difference(expected, said))))


def compare(program, folder, seconds):
    """Prints a line for each sheet that differs, and the numbers of sheets and of those. Whether all went well."""
    sheets = sorted({path.with_suffix('.sheet') for path in folder.iterdir()})
    differ = 0
    for sheet in sheets:
        wrong = fault(program, sheet, seconds)
        if wrong:
            differ += 1
            print(f'{sheet.stem}: {wrong}', flush=True)
    print(f'{len(sheets)} sheets, {differ} differ')
    return bool(sheets) and differ == 0


def main():
    parser = argparse.ArgumentParser(description=__doc__, formatter_class=argparse.RawDescriptionHelpFormatter)
    parser.add_argument('--sheets', type=Path, default=Path(__file__).resolve().parent / 'sheets', metavar='FOLDER')
    parser.add_argument('--seconds', type=float, default=20, metavar='LIMIT')
    parser.add_argument('program', nargs=argparse.REMAINDER, metavar='PROGRAM [ARGUMENT ..]')
    arguments = parser.parse_args()
    if not arguments.program:
        parser.error('no program is given')
    try:
        return 0 if compare(arguments.program, arguments.sheets, arguments.seconds) else 1
    except OSError as error:
        return f'cannot go on: {error}'


if __name__ == '__main__':
    sys.exit(main())
