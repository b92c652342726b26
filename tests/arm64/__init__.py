"""The code for ARM64, run by qemu: a part of the rows and samples in `make test`, all by `make arm64`."""
