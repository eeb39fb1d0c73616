#!/usr/bin/env python3
"""The status of ./run: 0 where the sheet was read and all was written, a refused sheet included; 1, with a line on standard error,
where standard input cannot be read or the output is not whole."""
import subprocess
import sys
from pathlib import Path

ROOT = Path(__file__).resolve().parent.parent
UNREAD = 'run_sheet: standard input cannot be read'
NOT_WHOLE = 'run_sheet: the output is not whole'
# the redirections, the status, and the last line on standard error where one is expected
ENDINGS = [
    ('< examples/square.sheet', 0, None),
    ('< /dev/null', 0, None),
    ('<&-', 1, UNREAD),
    ('< .', 1, UNREAD),
    ('< examples/square.sheet > /dev/full', 1, NOT_WHOLE),
    ('< /dev/null > /dev/full', 1, NOT_WHOLE),
    ('< examples/products.sheet > /dev/full', 1, NOT_WHOLE),
    ('< examples/square.sheet >&-', 1, NOT_WHOLE),
]


def endings():
    """The endings that differ from what they should be."""
    for redirections, status, line in ENDINGS:
        ran = subprocess.run(['bash', '-c', f'./run {redirections}'], cwd=ROOT, stdin=subprocess.DEVNULL, stdout=subprocess.DEVNULL,
                             stderr=subprocess.PIPE, text=True, timeout=300, check=False)
        last = ran.stderr.splitlines()[-1:]
        if ran.returncode != status or (line and last != [line]):
            yield f'./run {redirections}: status {ran.returncode}, {last}'


if __name__ == '__main__':
    faults = list(endings())
    print('\n'.join(faults) or f'run: {len(ENDINGS)} endings')
    sys.exit(bool(faults))
