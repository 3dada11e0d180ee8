#!/usr/bin/env python3
"""dds.py: writes samples/dds.txt, what the sample files are as DDS files: a line for each, with the file, how many bytes and their hash
(FNV-1a of 64 bits). They are as cases/reference.py writes them: neither the proved code nor the Rust crate has a say."""
import os
import sys

here = os.path.dirname(os.path.abspath(__file__))
sys.path.insert(0, os.path.join(here, '..', 'cases'))
import reference


def dds(file):
    opened = reference.opening(file, {part: [0] * 3 * 8192 for part in reference.PARTS})
    record, palettes = reference.handed(opened[2], opened[3]), opened[4]
    refusal, size = reference.dds_bytes(record[0])
    answer = reference.dds_out(record, file, palettes, bytes(size))
    assert refusal == answer[0] == 0, answer
    return answer[6]


with open(os.path.join(here, 'dds.txt'), 'w') as out:
    for name in sorted(os.listdir(here)):
        if name.endswith('.crn'):
            with open(os.path.join(here, name), 'rb') as file:
                made = dds(file.read())
            print(name, len(made), reference.fnv(made), file=out)
