"""The reference: a second computation of the mortgage capital book with exact fractions.

Written from the regulator's papers (source documents 000 and 002) and from document 01,
not from the program. Slow, plain, and the judge of every stored figure in the tests.
"""
