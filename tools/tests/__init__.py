"""Unit tests of what tools parse and compute: `python3 -m unittest discover -s tools/tests -t tools`.

Expected values are worked out by hand from what the formats and the language say, and none by the code that is tested.
"""
