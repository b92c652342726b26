"""A clock in seconds that runs on while the machine is suspended, where there is one: what came before is late then."""
import time

_KIND: int = getattr(time, "CLOCK_BOOTTIME", time.CLOCK_MONOTONIC)


def now() -> float:
    """The seconds since some moment."""
    return time.clock_gettime(_KIND)
