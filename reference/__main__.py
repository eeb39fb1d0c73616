"""Runs a sheet from standard input, of which at most 4,097 bytes are read."""
import sys

from reference import sheet

sys.stdout.write(sheet.printed(sys.stdin.buffer.read(sheet.MOST_BYTES + 1)))
