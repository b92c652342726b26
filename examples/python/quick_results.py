#!/usr/bin/env python3
"""Prints the results of the messages on standard input, each with its unit: quick_results.py < samples/panel.records

A message that can't be read, as one whose session broke off, is named on standard error.
"""
import sys
from typing import Optional

import lislink


def text(part: Optional[bytes]) -> str:
    return (part or b"").decode("latin-1")


def report(fault: lislink.MessageError) -> None:
    print(fault, file=sys.stderr)


for rows in lislink.messages(iter(lambda: sys.stdin.buffer.read(4096), b""), on_fault=report):
    for row in rows:
        if row.letter == "R":
            print(text(row.part(3, component=3)), text(row.part(4)), text(row.part(5)))
