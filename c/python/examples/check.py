"""The checker: the text of a trace in, the line of `pciex check` out."""

import sys

import pciex

line = pciex.check(sys.stdin.read())
print(line)
sys.exit(line != "ok")
