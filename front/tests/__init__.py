"""Tests of the front, by `python3 -m tests` in the folder `front`.

Those that ask the proved program take the one that `vutselqi` finds: the variable CEDAR_SYMCC names it, or the gate has
left it.
"""
