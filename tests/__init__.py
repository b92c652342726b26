"""The tests, by what they try; each folder says so in its `__init__.py`. `tests/run` runs them. `tests/all`
runs those over what `make` built, `tests/prove` the kit's gate and those of what it built."""
import os
import sys

sys.dont_write_bytecode = True
ROOT = os.path.dirname(os.path.dirname(os.path.abspath(__file__)))
# What the programs of tests are compiled to is kept, and not among the sources: to compile it takes most of a start.
os.environ.pop("PYTHONDONTWRITEBYTECODE", None)
BYTECODE = os.environ.setdefault("PYTHONPYCACHEPREFIX", os.path.join(ROOT, "build", "bytecode"))
# The model and the rows, the generated inputs, the Python packages.
sys.path[1:1] = [os.path.join(ROOT, folder) for folder in ("conformance", "bench", "python/src", "lab/src")]
