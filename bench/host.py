"""How many messages a second a host stores, of so many analyzers that send at once: `lislab send` to `lislab serve`
with an SQLite store, all on this machine. What the disk takes to sync is in it."""
import os
import re
import signal
import subprocess

import programs

ANALYZERS = (1, 20, 200)
LISLAB = os.path.join(programs.ROOT, "tools/lislab")


def environment():
    """That of a program over the library that `make` built; none if there is none."""
    library = os.path.join(programs.ROOT, "build/liblislink.so.1")
    return {**os.environ, "LISLINK_LIBRARY": library} if os.path.exists(library) else None


def sent(place, analyzers, seconds):
    """The messages a second that so many analyzers send, each as soon as its last one is acknowledged."""
    words = [LISLAB, "send", "--to", place, "--analyzers", str(analyzers), "--made", "1000000",
             "--seconds", str(seconds), "--quiet"]
    run = subprocess.run(words, env=environment(), stdout=subprocess.PIPE, stderr=subprocess.STDOUT, text=True)
    found = re.search(r"done \d+, failed \d+, ([\d.]+) per second", run.stdout)
    if not found:
        raise SystemExit(f"{' '.join(words)}:\n{run.stdout}")
    return float(found[1])


def ready(host):
    """The port of a host that has started."""
    port = None
    for line in host.stdout:
        port = re.search(r"^listening \S+:(\d+)", line) or port
        if line == "ready\n":
            return port[1]
    raise SystemExit("lislab serve ended")


def stored(work, seconds):
    """The messages a second by how many analyzers send them, each number of them to a host of its own."""
    found = {}
    for analyzers in ANALYZERS:
        words = [LISLAB, "serve", "--store", os.path.join(work, f"{analyzers}.db"), "--listen", "0",
                 "--address-lines", str(analyzers), "--grace", "0"]
        with subprocess.Popen(words, env=environment(), stderr=subprocess.STDOUT, stdout=subprocess.PIPE,
                              text=True) as host:
            try:
                found[analyzers] = sent(f"127.0.0.1:{ready(host)}", analyzers, seconds)
            finally:
                host.send_signal(signal.SIGTERM)
                host.communicate()
    return found
