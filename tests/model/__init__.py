"""A plain second implementation of `prepaid`, written from docs/FORMATS.md and docs/GSMSSF.md and not from the code.

It is slow and simple where the program is fast and proved: an account's credit is summed up anew
from its entries, and units are tried one by one or by halving. tests/random.sh compares the two.
"""
