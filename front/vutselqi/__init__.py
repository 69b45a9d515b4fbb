"""Vutselqi's front: what the proved program `cedar_symcc` answers about Cedar policies, as people read it.

The front decides nothing. It runs the program, and each sentence that it prints comes from a line of the program.
"""

__version__ = "1.0.0"
