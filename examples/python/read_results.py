#!/usr/bin/env python3
"""Prints the results of the messages on standard input, each with its sample: read_results.py < samples/panel.records

A message that can't be read is named on standard error, and hides no later one.
"""
import sys

import lislink

for found in lislink.read_all(sys.stdin.buffer.read(), encoding="latin-1"):
    if isinstance(found, lislink.Found):
        for patient, order, result in found.message.results():
            test = result.part(3, component=3) or b""
            print(order.specimen_id, test.decode("latin-1"), result.value, result.unit)
    else:
        print(f"record {found.error.number}: {found.error.reason.name}", file=sys.stderr)
