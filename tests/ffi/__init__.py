"""The library from C, C++, Rust and Python: its header, its calls, the rows through it, the samples over it."""
