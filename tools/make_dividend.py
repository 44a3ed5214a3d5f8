#!/usr/bin/env python3
"""Writes the joint dividend circuit: two ticket counts of 7 bits, added with XOR and AND gates, choose a row of a table.

    tools/make_dividend.py > crates/settle/data/dividend.circuit

Inputs 0 to 6 are the first count and 7 to 13 the second, lowest bit first. Row s of the table is what a pool of
60,000 pays on each of s tickets (all of it where s is 0); its 16 bits are the outputs, lowest first.
"""
import struct
import sys

XOR, AND = 0, 1
POOL = 60000
BITS = 7

forms, places, operands = [], [], []
made = 2 * BITS


def gate(form, *words):
    """Adds a gate of one new wire and answers the wire."""
    global made
    forms.append(form)
    places.append(len(operands))
    operands.extend(words)
    made += 1
    return made - 1


total = [gate(XOR, 0, BITS)]
carry = gate(AND, 0, BITS)
for k in range(1, BITS):
    a, b = k, BITS + k
    ac = gate(XOR, a, carry)
    bc = gate(XOR, b, carry)
    total.append(gate(XOR, a, bc))
    both = gate(AND, ac, bc)
    carry = gate(XOR, both, carry)
total.append(carry)

rows = [POOL // max(s, 1) for s in range(256)]
forms.append(256 * len(total) + 16)
places.append(len(operands))
operands.extend(total + [0])
outputs = list(range(made, made + 16))

sizes = [2 * BITS, len(forms), len(outputs), len(operands), len(rows)]
words = sizes + forms + places + operands + rows + outputs
sys.stdout.buffer.write(struct.pack("<%dH" % len(words), *words))
