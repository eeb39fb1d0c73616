"""The reference program: document 01 and the first five requests of document 02 in plain Python, written from these papers and,
for formulas 4.1 to 4.4, the paper that document 01 makes the standard.

It shares nothing with the Rattle code. It makes the stored vectors and the conformance kit, and judges what the built programs print.

    python3 -m reference < SHEET       run a sheet
    python3 -m reference.vectors       write the stored vectors (--check: compare them)
    python3 -m unittest discover -t . -s reference
"""
