#!/usr/bin/env python3
"""Receives from analyzers on a TCP port with asyncio: keeping a text and sending its reply are both awaited, so other
lines go on meanwhile.

    async_receive.py PORT FILE          PORT 0 is one that is free, and is printed

A step is answered before the receiver hears on: keep, then reply. An error between the two ends the connection, and no
reply goes out.
"""
import asyncio
import contextlib
import sys

from clock import now
from keep import TextFile

import lislink

LATE = 10  # seconds: a reply that goes out later could come after the analyzer's timer, which is 15
PAUSE = 1  # second: a line that is idle is looked at so often


async def receive(reader: asyncio.StreamReader, writer: asyncio.StreamWriter, store: TextFile) -> None:
    loop = asyncio.get_running_loop()
    seen_empty = now()                    # bytes came after this
    with lislink.Receiver(careful=True) as receiver:    # a damaged byte acknowledges nothing
        while True:
            before, is_late = now(), False
            try:
                data = await asyncio.wait_for(reader.read(4096), PAUSE)
            except asyncio.TimeoutError:
                seen_empty = before
                continue
            if not data:
                return
            for step in receiver.hear(data):
                if step.text is not None and not is_late:
                    await loop.run_in_executor(None, store.keep, step.text)
                is_late = is_late or now() - seen_empty > LATE
                if not is_late:
                    writer.write(step.reply)
                    await writer.drain()
            if is_late:
                receiver.restart()              # the analyzer sends this session again
            if len(data) < 4096:
                seen_empty = before


async def main() -> None:
    with contextlib.closing(TextFile(sys.argv[2])) as store:
        done = asyncio.Event()

        async def serve(reader: asyncio.StreamReader, writer: asyncio.StreamWriter) -> None:
            try:
                await receive(reader, writer, store)
            except OSError as fault:
                print(f"no reply was sent: {fault}", file=sys.stderr)
            finally:
                writer.close()
                done.set()

        server = await asyncio.start_server(serve, "127.0.0.1", int(sys.argv[1]))
        if sys.argv[1] == "0":
            print("port", server.sockets[0].getsockname()[1], flush=True)
        await done.wait()                       # a sample serves one connection to its end; a host goes on
        server.close()


if __name__ == "__main__":
    asyncio.run(main())
