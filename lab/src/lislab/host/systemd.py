"""Tells systemd that the host is ready, alive or stopping, by datagrams to the socket that `NOTIFY_SOCKET` names;
without it nothing is sent."""
import asyncio
import os
import socket


def notify(state: str) -> None:
    """Says a state, as `READY=1`. Nobody who listens is no reason to stop."""
    where = os.environ.get("NOTIFY_SOCKET", "")
    if not where:
        return
    try:
        with socket.socket(socket.AF_UNIX, socket.SOCK_DGRAM | socket.SOCK_CLOEXEC) as one:
            one.setblocking(False)
            one.sendto(state.encode(), "\0" + where[1:] if where.startswith("@") else where)
    except OSError:
        pass


def watchdog_seconds() -> float:
    """How often it is to be said that the host is alive; 0 if nobody asks."""
    asked, process = os.environ.get("WATCHDOG_USEC", ""), os.environ.get("WATCHDOG_PID", "")
    if not asked.isdigit() or process not in ("", str(os.getpid())):
        return 0.0
    return int(asked) / 2e6


async def alive(seconds: float) -> None:
    """Says that the host is alive, as long as its loop goes on."""
    while seconds:
        notify("WATCHDOG=1")
        await asyncio.sleep(seconds)
