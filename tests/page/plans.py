"""Writes the bytes of a plan: the largest within the limits, or a ladder."""

import sys


def largest():
    """32 stations, 63 slots, 1,024 records: neighbours along a river, at most three stations apart."""
    state, found = 1, {(63, 30, 31)}
    while len(found) < 1024:
        state = (state * 6364136223846793005 + 1442695040888963407) % 2**64
        drawn = state >> 33
        sender, drawn = drawn % 32, drawn // 32
        step, drawn = (-3, -2, -1, 1, 2, 3)[drawn % 6], drawn // 6
        if 0 <= sender + step < 32:
            found.add((drawn % 63 + 1, sender, sender + step))
    return sorted(found)


def ladder():
    """Document 01's ladder with 15 layers, each sending to the next: source 0, then layers of two, a slot for each."""
    layers = [[0]] + [[2 * layer + 1, 2 * layer + 2] for layer in range(15)]
    return [(slot + 1, sender, hearer) for slot in range(15) for sender in layers[slot] for hearer in layers[slot + 1]]


records = {"largest": largest, "ladder": ladder}[sys.argv[1]]()
sys.stdout.buffer.write(b"".join(field.to_bytes(2, "big") for record in records for field in record))
