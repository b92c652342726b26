"""Diagnosis of a line: verdicts, causes of faults, and the state of a running line."""
