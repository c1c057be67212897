"""Tests of the package `mdvsp`, which is no part of what is proved.

    MDVSP=PROGRAM python3 -m unittest discover -s python/tests -t python

PROGRAM is the built program; where it isn't named, bin/mdvsp or what the gate built is taken. What has to come out is
worked out by hand from docs/formats.md and from the examples, or, where a property is tested, counted in another way.
"""
