#!/usr/bin/env python3
"""Prints datagrams as lines of hexadecimal.

  print_datagrams.py recorded ORDER  those of examples/ and of tests/data/recordings/, and each of
                                     their messages alone
  print_datagrams.py mutated ORDER   mutations of them, the same in each run
  print_datagrams.py NAME ORDER      those of the recording NAME
  print_datagrams.py asked           a line for each recording: its name, the family's word and NEW
                                     type, and the sequence number and port id of its answers

The order is little or big.
"""
import os
import random
import sys

sys.dont_write_bytecode = True
sys.path.insert(0, f"{os.path.dirname(os.path.realpath(__file__))}/../helpers")
import counting
import datagrams
import mutations
import reference

# So many of each recording.
MUTATIONS = 150 if counting.IS_WHOLE else 15


def recorded(order):
    return [text for _, _, whole, alone in datagrams.recordings(order) for text in whole + alone]


def mutated(order):
    choose = random.Random(f"the library for C {order}")
    found = list(datagrams.recordings(order))
    others = [text for *_, alone in found for text in alone]
    for *_, whole, alone in found:
        yield from mutations.mutations(choose, MUTATIONS, whole, alone, others, order)


def of_recording(name, order):
    found = {file: whole for file, _, whole, _ in datagrams.recordings(order)}
    return found[name]


def main(sort, order="little"):
    if sort == "asked":
        for name, (word, sequence, port), *_ in datagrams.recordings("<"):
            print(name, word, reference.NEW[word], sequence, port)
        return
    make = {"recorded": recorded, "mutated": mutated}.get(sort, lambda it: of_recording(sort, it))
    found = make(datagrams.ORDERS[order])
    print("\n".join(text.hex() for text in found if text))


if __name__ == "__main__":
    main(*sys.argv[1:])
