"""The drill set: captures that tell builds apart, each with the line that must come out, made from fixed seeds.

`frames`, `reception` and `hearing` make what was heard, out of the model in tools/captures. `nearest` is the checking model: a decoder of its own
that every capture goes through which is not refused before a search. A module for each kind has its captures, `pages` writes what they are.
"""
