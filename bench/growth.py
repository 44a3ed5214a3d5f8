#!/usr/bin/env python3
"""A whole settlement of a circuit of so many gates of one kind, as input of transcript: growth.py xor|and|table GATES"""
import sys

INPUTS = 8
# Of each kind: the form, and the material's bytes under long labels.
KINDS = {"xor": (0, 0), "and": (1, 32), "table": (256 * 8 + 1, (7 + 8) * 16 + 32)}


def circuit(kind, gates):
    """The circuit's words: gate g reads the wires right before its own, and all tables share their rows."""
    reads = 8 if kind == "table" else 2
    operands, places = [], []
    for gate in range(gates):
        places.append(len(operands))
        operands += [INPUTS + gate - 1 - k for k in range(reads)]
        operands += [0] if kind == "table" else []
    rows = [i * 7 // 4 % 2 for i in range(256)] if kind == "table" else []
    sizes = [INPUTS, gates, 1, len(operands), len(rows)]
    return sizes + [KINDS[kind][0]] * gates + places + operands + rows + [INPUTS + gates - 1]


def main():
    kind, gates = sys.argv[1], int(sys.argv[2])
    words = circuit(kind, gates)
    wires, material = INPUTS + gates, KINDS[kind][1] * gates
    print("hash aes")
    print("circuit", b"".join(word.to_bytes(2, "little") for word in words).hex())
    print("seed", "31" * 16)
    print("wires", wires, wires)
    print("material", material)
    print("counts 0 0")
    for i in range(INPUTS):
        print(f"call encode {i} {i % 2}\ncall deliver {i}")
    print(f"call garble 256 {material}\n" * gates + "call evaluate 256\n" * gates, end="")
    print("call colours 1\ncall decode 1\ncall certify 0")


main()
