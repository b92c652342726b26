"""A receiver of MLLP on the library hl7: receiver.py PORT LOG. It writes the control id, the sample and the value of
each message into its log, and then acknowledges it. It prints its port. A file LOG.die kills it: `before` in it at the
next message, `after` when that is in the log and not acknowledged."""
import asyncio
import importlib.util
import os
import random
import signal
import sys
import tempfile

#: Where Debian's packages for Python are.
DEBIAN = "/usr/lib/python3/dist-packages"
MISSING = "hl7 (Debian: python3-hl7) is not installed"


#: The library's folder: this Python's, or Debian's, which any version of Python can use.
_SPEC = importlib.util.find_spec("hl7")
_FOLDER = os.path.realpath(os.path.dirname(_SPEC.origin)) if _SPEC is not None else os.path.join(DEBIAN, "hl7")


def folder_of_hl7():
    """A folder that has the library and nothing else, for a search path; None if it isn't installed."""
    if not os.path.exists(os.path.join(_FOLDER, "__init__.py")):
        return None
    made = tempfile.mkdtemp(prefix="lis-hl7-")
    os.symlink(_FOLDER, os.path.join(made, "hl7"))
    return made


def die(log, where):
    """Dies if it is to die there."""
    try:
        with open(log + ".die", encoding="ascii") as file:
            if file.read() != where:
                return
    except FileNotFoundError:
        return
    os.unlink(log + ".die")
    os.kill(os.getpid(), signal.SIGKILL)


async def serve(port, log):
    """Serves until it is killed."""
    import hl7
    import hl7.mllp

    async def one(reader, writer):
        while True:
            try:
                message = await reader.readmessage()
            except (asyncio.IncompleteReadError, ConnectionError):
                break
            row = (str(message[name]) for name in ("MSH.F10", "OBR.F3", "OBX.F5"))
            die(log, "before")
            await asyncio.sleep(random.random() / 500)
            with open(log, "a", encoding="utf-8") as file:
                file.write(" ".join(row) + "\n")
            die(log, "after")
            await asyncio.sleep(random.random() / 500)
            writer.writemessage(message.create_ack())
            await writer.drain()
        writer.close()

    server = await hl7.mllp.start_hl7_server(one, "127.0.0.1", port, encoding="utf-8", limit=1 << 24)
    print(server.sockets[0].getsockname()[1], flush=True)
    async with server:
        await server.serve_forever()


if __name__ == "__main__":
    asyncio.run(serve(int(sys.argv[1]), sys.argv[2]))
