# The average of bars as a fraction, and the notional in dollars: exact, by Python's standard library alone.
# Needs: python3
# Call: python3 recipes/exact.py bars.csv
import csv
import sys
from fractions import Fraction

with open(sys.argv[1], newline="") as file:
    for bar in csv.DictReader(file, quoting=csv.QUOTE_NONE):
        price, rest = bar["average"].split("+")
        average = Fraction(price) + Fraction(rest) / 10000
        print(bar["symbol"], bar["start"], average, average * int(bar["volume"]))
