#!/usr/bin/env python3
"""Whose each result is: reads the record text of messages on standard input, and prints the patient, the specimen, the
test and the value of each result. The library finds where the records are; what is printed alone is copied."""
import sys

import lislink


def report(fault: lislink.MessageError) -> None:
    print(fault, file=sys.stderr)


for message in lislink.message_places(sys.stdin.buffer.read(), on_fault=report):
    for patient, order, result in message.results:
        parts = patient.part(4), order.part(3), result.part(3, component=3), result.part(4)
        print(*(part.decode("latin-1") if part else "" for part in parts))
