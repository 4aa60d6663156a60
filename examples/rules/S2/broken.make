#!/usr/bin/env python3
# Writes the page that breaks S2 to standard output: mended.html with each letter of a long text in an element of its own, as
# some converters write pages, which makes one `<` more than the pages of a set may have.
import os
import sys

LIMIT = 8388608

with open(os.path.join(os.path.dirname(os.path.abspath(__file__)), 'mended.html')) as page:
    front, behind = page.read().split('Miller sells bread.')
room = LIMIT + 1 - front.count('<') - behind.count('<')
sys.stdout.write(front + '<i>x</i>' * (room // 2) + '<br/>' * (room % 2) + behind)
