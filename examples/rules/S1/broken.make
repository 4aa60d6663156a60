#!/usr/bin/env python3
# Writes the page that breaks S1 to standard output: mended.html with its picture put into the page itself, 64 times over,
# which makes one byte more than the pages of a set may have.
import os
import sys

LIMIT = 268435456
BEGIN, END = '<img alt="Our shop" src="data:image/png;base64,', '"/>'

with open(os.path.join(os.path.dirname(os.path.abspath(__file__)), 'mended.html')) as page:
    front, behind = page.read().split('<img src="shop-1.png" alt="Our shop"/>')
room = LIMIT + 1 - len(front) - len(behind)
sys.stdout.write(front)
for at in range(64):
    size = room // 64 + (at < room % 64)
    sys.stdout.write(BEGIN + 'A' * (size - len(BEGIN) - len(END)) + END)
sys.stdout.write(behind)
