"""The proved laboratory link of LIS01-A2 and LIS02-A2 for Python.

`Scanner`, `Sender`, `Receiver`, `Station`, `Reader` and `Writer` call the proved library liblislink by ctypes.
`Message` makes data of the records that a reader read, and `order_texts` the records of orders. The command is
`lislab`. The package itself is tested and not proved. The standard's timers are `REPLY`, `BUSY`, `CONTENTION` and
`RECEIVER`, in seconds; a frame's text has at most `FRAME_TEXT` bytes, or `LONG_FRAME_TEXT` with the long limit.

A loop that receives stores each text before the reply goes out. If `store` raises an exception, no reply is sent::

    with lislink.Receiver(careful=True) as receiver:
        while data := line.recv(4096):
            for step in receiver.hear(data):
                if step.text is not None:
                    store(step.text)
                line.sendall(step.reply)
"""
from ._library import LibraryMissing
from .capture import Capture, CaptureError, Line, read_capture, write_lines
from .codes import FrameFault, Kind, Note, Outcome, Phase, Readiness, Reason, Role, Status
from .columns import columns
from .link import (
    BUSY,
    CONTENTION,
    FRAME_TEXT,
    LONG_FRAME_TEXT,
    RECEIVER,
    REPLY,
    LinkError,
    Receiver,
    Scanner,
    Sender,
    Signal,
    Step,
    WrongThread,
    frame_bytes,
)
from .message import Entry, Fault, Finding, Found, Message, read_all
from .order import Order, OrderError
from .order import texts_of as order_texts
from .places import MessagePlaces, ResultView, View, message_places
from .records import MessageError, Reader, Record, Writer, messages, next_header, records
from .rows import Row
from .station import Answer, Station

__version__ = "0.2.0"
__all__ = [
    "BUSY",
    "CONTENTION",
    "FRAME_TEXT",
    "LONG_FRAME_TEXT",
    "RECEIVER",
    "REPLY",
    "Answer",
    "Capture",
    "CaptureError",
    "Entry",
    "Fault",
    "Finding",
    "Found",
    "FrameFault",
    "Kind",
    "LibraryMissing",
    "Line",
    "LinkError",
    "Message",
    "MessageError",
    "MessagePlaces",
    "Note",
    "Order",
    "OrderError",
    "Outcome",
    "Phase",
    "Readiness",
    "Reader",
    "Reason",
    "Receiver",
    "Record",
    "ResultView",
    "Role",
    "Row",
    "Scanner",
    "Sender",
    "Signal",
    "Station",
    "Status",
    "Step",
    "Writer",
    "View",
    "WrongThread",
    "__version__",
    "columns",
    "frame_bytes",
    "message_places",
    "messages",
    "next_header",
    "order_texts",
    "read_all",
    "read_capture",
    "records",
    "write_lines",
]
