#!/usr/bin/env python3
"""Prints the GPS times of a text file that has a column GpsTime, as numbers.

    examples/times.py FILE
"""

import csv
import struct
import sys

with open(sys.argv[1], newline="") as file:
    for row in csv.DictReader(file):
        print(struct.unpack(">d", bytes.fromhex(row["GpsTime"][2:]))[0])
