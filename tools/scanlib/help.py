"""What `--help` prints."""

DESCRIPTION = """\
Jobs of a depth-ordered scan as text, and sessions shown as the rows come out.

A first session:
  python3 tools/scan.py run tools/examples/missing-bag.txt

The text has one record a line, or several with commas between them; # or // begins a comment.
  SC slots             first of all: how many splits are read at once
  SG segment rows      a stored bag and its rows; 0 rows: the bag is missing
  CC n                 joins the newest n nodes downwards
  PK n                 puts the newest n nodes side by side as columns; a CC or PK of one node
                       stands for that node, and counts to the 24 nodes all the same
  SP start end runs    rows to read, from start up to but without end; then start (counted from
                       the split's start) and length of each run that is kept; a run has a row
                       or more, does not start before the end of the run before and ends
                       within the split; runs that meet are joined
  ST                   call: a step
  DL read rows         call: the segment of a read has come, with so many rows; a step follows
                       if the scan accepts it
  HEX 53 50 01         bytes that are no whole record
"""

EPILOG = """\
Exit status: 0 if nothing was refused, 1 if the scan refused the job or a call, 2 for anything else
that went wrong.
"""

RUN = """\
Runs a job with the program turns and shows each turn: which bag is asked for, which bags are awaited, where
each split stands, and the rows as they come out, by depth.

At each wait one bag comes in, chosen by --order:
  first    the one asked for first (taken where the file has no calls)
  last     the one asked for last
  random   any; --seed makes it the same each time
  ask      you are asked
Without --order the calls in the file are made as they stand.

Examples:
  python3 tools/scan.py run tools/examples/c1.txt
  python3 tools/scan.py run tools/examples/two-columns.txt --order ask
  python3 tools/scan.py run tools/examples/missing-bag.txt --order random --seed 7 --quiet
"""
