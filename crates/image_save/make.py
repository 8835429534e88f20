#!/usr/bin/env python3
"""Writes this crate's stdin and stdout: a script, and the image of the atlas that it leaves, worked out from 01 by hand and by image_runs/make.py's reading of the format."""
import pathlib
import sys

here = pathlib.Path(__file__).resolve().parent
sys.path.insert(0, str(here.parent / 'image_runs'))
from make import NONE, image_of

SCRIPT = 'n 100 40 1 1 0 1\na 30 40\na 200 1\na 20 40\nr 1 1\n'
# One shelf, of depth 40. 30 x 40 takes the left of it, 200 x 1 is refused, 20 x 40 goes beside it in row 1, and its release joins the rest, row 2, to it.
HEADER = (100, 40, 1, 1, 0, 100, 1, 3, 2, NONE, 30 * 40)
SHELVES = [(0, 0, 40, NONE, NONE, 0, 1, 0)]
ITEMS = [(0, 30, NONE, 1, NONE, NONE, 0, 1, 1), (30, 70, 0, NONE, NONE, NONE, 0, 0, 1), (0, 0, 0, NONE, 0, 0, 0, 0, 1)]

(here / 'stdin').write_text(SCRIPT)
(here / 'stdout').write_bytes(image_of(HEADER, SHELVES, ITEMS))
