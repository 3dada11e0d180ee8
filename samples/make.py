#!/usr/bin/env python3
"""make.py SHARED: the sample files, of the parts of SHARED/oracle/mkcrn.py and bench/files.py from fixed seeds. They hold nobody's picture."""
import os
import random
import sys

here = os.path.dirname(os.path.abspath(__file__))
sys.path.insert(0, os.path.join(here, '..', 'bench'))
import files

SAMPLES = [  # name, format, palette entries, width, height, faces
    ('dxt1', 0, 40, 64, 64, 1),
    ('dxt5', 2, 30, 48, 32, 1),
    ('dxn', 7, 25, 32, 32, 1),
    ('dxt5a', 9, 25, 20, 12, 1),
    ('cube', 0, 20, 16, 16, 6),
]

for seed, (name, fmt, entries, width, height, faces) in enumerate(SAMPLES):
    data = files.file(random.Random(seed), fmt, entries, files.halved(width, height), files.fitted_table, files.NearEntry, faces)
    files.write(here, name, data)
