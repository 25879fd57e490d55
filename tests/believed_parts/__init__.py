"""The parts of tests/believed.

    antt.py      reads antt files: use lines and declarations
    rattle.py    reads Rattle files: types, functions and their contracts
    scope.py     finds the names that a text cites and does not bind itself
    tree.py      the repository: finds the declaration that a written name refers to
    closure.py   the roots, and everything that a reader has to believe because of them
    checks.py    the faults that the gate looks for, and the list docs/believed.txt
    printing.py  what the command prints
    selftest.py  plants faults into a copy of the repository, each of which must be seen
"""
