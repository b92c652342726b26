"""The program's commands: what they print at known values, in pieces, and for the conformance rows; its words."""
