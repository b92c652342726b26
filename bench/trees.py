"""Measures messages as trees: those of the crates (crates/vectors), and two of the independent program, one of Vecs of
Vecs and one of places in one buffer (peer/vecs.rs, peer/places.rs). Next to them messages as tables of places in their
text (lis_message_table), without and with all components of each record.

All trees are compared first, symbol by symbol. Then some messages are read again and again, each time with the memory
of the time before, as a program does that drops each message; and a text is read once, all of whose messages are kept.
"""
import glob
import os
import re
import statistics
import subprocess
import time
from collections import namedtuple

import inputs
import measured
import programs

# Bytes of the messages that are read again and again, of a text whose messages are kept, of one whose heap is counted.
FEW, KEPT, HEAP = 8_000, 8_000_000, 600_000

# Bytes of a record's place in a table.
PLACE = 24

Row = namedtuple("Row", "name again ratios tables kept instructions heap size records")


def ways(vectors, peer):
    """The words that read a text so many times, of each way."""
    return {"ours": lambda rounds: [vectors, "again", str(rounds)],
            "places": lambda rounds: [peer, "trees", "places", str(rounds)],
            "vecs": lambda rounds: [peer, "trees", "vecs", str(rounds)]}


def tables(vectors):
    """The words that read a text so many times into one table, and then all components of each record too."""
    return {"tables": lambda rounds: [vectors, "tables", str(rounds)],
            "parts": lambda rounds: [vectors, "parts", str(rounds)]}


def messages_of(block, size):
    """The first messages of a block that is made of whole ones, at least so many bytes."""
    whole = block * (size // len(block) + 1)
    end = whole.find(b"\rH|", size)
    return whole if end < 0 else whole[:end + 1]


def trees_of_rows(vectors, text):
    """The trees that the crates make of a text, as the answers of conformance rows have them."""
    run = subprocess.run([vectors], input=b"message.read %s\n" % (text.hex().encode() or b"-"), stdout=subprocess.PIPE)
    return re.findall(r"message (delimiters=\S+ records=\d+ tree=\S+)", run.stdout.decode())


def trees_of_peer(peer, way, text):
    run = subprocess.run([peer, "trees", way], input=text, stdout=subprocess.PIPE)
    return run.stdout.decode().splitlines()


def texts(all_inputs):
    """The texts whose trees are compared: the samples, and the first messages of each input."""
    for path in sorted(glob.glob(os.path.join(programs.ROOT, "samples/**/*.records"), recursive=True)):
        with open(path, "rb") as file:
            yield os.path.relpath(path, programs.ROOT), file.read()
    for made in all_inputs:
        yield made.name, messages_of(made.block, FEW)


def differing(vectors, peer, all_inputs):
    """Prints each text of which not all make the same trees. How many, and how many trees are the same."""
    wrong, same = 0, 0
    for name, text in texts(all_inputs):
        ours = trees_of_rows(vectors, text)
        for way in ("vecs", "places"):
            if trees_of_peer(peer, way, text) != ours:
                wrong += 1
                print(f"trees of {name}: {way} makes others", flush=True)
        same += len(ours)
    return wrong, same


def seconds(words, path, answer):
    """Wall seconds of one run, which must answer so."""
    with open(path, "rb") as source:
        start = time.perf_counter()
        run = subprocess.run(words, stdin=source, stdout=subprocess.PIPE, check=True)
        ended = time.perf_counter() - start
    if int(run.stdout) != answer:
        raise SystemExit(f"{' '.join(words)}: {run.stdout.decode()} in place of {answer}")
    return ended


def speeds(work, known, text, readings, rounds):
    """MB/s of each way, medians; the spread of how many times the speed of each other way ours makes; and of how many
    times the speed of places each way makes."""
    path = os.path.join(work, "text")
    with open(path, "wb") as file:
        file.write(text)
    answer = readings * text.count(b"\rL|")
    times = [{way: seconds(words(readings), path, answer) for way, words in known.items()} for _ in range(rounds)]
    made = {way: readings * len(text) / 1e6 / statistics.median(one[way] for one in times) for way in known}
    return (made, {way: measured.spread([one[way] / one["ours"] for one in times]) for way in known},
            {way: measured.spread([one["places"] / one[way] for one in times]) for way in known})


def small():
    """The inputs of records whose instructions are counted, by name."""
    return {made.name: made for made in inputs.inputs(inputs.COUNTED) if "check" in made.commands}


def instructions_a_byte(words, made):
    """The instructions for a byte of the first messages of an input, read with the memory of the time before."""
    few = messages_of(made.block, FEW)
    return (measured.instructions(words(3), few) - measured.instructions(words(1), few)) / 2 / len(few)


def heap_a_byte(words, made):
    """The bytes of heap for a byte of text, all of whose messages are kept."""
    many = messages_of(made.block, HEAP)
    return (measured.heap(words(1), many) - measured.heap(words(0), many)) / len(many)


def rows(work, vectors, peer, all_inputs, asked):
    """A row for each input."""
    known, counted = ways(vectors, peer), small()
    both = {**known, **tables(vectors)}
    for made in all_inputs:
        again, ratios, of_places, kept, instructions, heap = {}, {}, {}, {}, {}, {}
        few = messages_of(made.block, FEW)
        if asked.rounds:
            readings = int(asked.size * 1e6 / 3 / len(few))
            again, ratios, of_places = speeds(work, both, few, readings, asked.rounds)
            kept, _, _ = speeds(work, known, messages_of(made.block, KEPT), 1, min(asked.rounds, 5))
        if asked.counts:
            instructions = {way: instructions_a_byte(words, counted[made.name]) for way, words in both.items()}
            heap = {way: heap_a_byte(words, made) for way, words in known.items()}
        records = few.count(b"\r") / len(few)
        yield Row(made.name, again, ratios, of_places, kept, instructions, heap, PLACE * records, records)
