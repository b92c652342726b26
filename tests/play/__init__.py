"""`lislab play`: its scripts, against a plain host that was written by hand from the standard, with and without faults,
and against `lislab serve` and `lislab send`."""
from tests.host import SOURCE  # noqa: F401: the package is found from here on
