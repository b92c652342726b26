"""The Python package and the field kit `lislab`."""
