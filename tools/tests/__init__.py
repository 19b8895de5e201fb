"""Run from the repository's root: python3 -m unittest discover -s tools

The tests of whole sessions need the program `turns`: target/bin/turns, or the one that the variable TURNS names.
"""
