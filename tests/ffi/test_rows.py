"""The rows of conformance/ asked through the library for C.

All kinds but the commands are asked, at the library's limit on a frame's text. What is compared is a row's answer,
which was made elsewhere, and never one answer of the library with another. These are compared as a whole:

- The calls of a scanner, a sender and a receiver. A frame body that is read is put into a stream, if no byte in it
  ends it there.
- A text is checked by a session that is started with it. It is split by a session in which each frame is acknowledged;
  empty texts before it, each one frame, give its first frame the number.
- A link is played between a sender and a receiver of the library; what is on its way is kept by the test. The frames of
  'sent' are read from the bytes that the sender emits; one of 'accepted' is the unit that came, with the number that
  the receiver reports.

Of these answers a part is compared:

- Of delimiters that are rejected, by themselves or with their header, that they are; of an unknown kind not the byte. Of
  a component its bytes: not the marks of highlighting, nor whether a byte is a character or an escape.
- Of messages that are read how many there are, of each the number of its records, and in the order of its tree their
  letters and fields; the place and the reason of a fault. Not the delimiters, findings, texts and held bytes. Of
  'message.read' also the place of each record in the text, and the record that it is under.
- Of a record that is written 'check' and 'whole', after the parents that it needs: not 'part' and 'then', which are of
  sinks. Of a message that is built that no record is rejected, how many there are, and the text of each one that a
  writer can get; or which is rejected and why.

A writer gets fields whose components are without hexadecimal escapes and highlighting. Another record is left out;
within a message it is there by its letter alone, and its text is not compared. Left out are also fields that are
written by themselves, what goes to sinks, a message that isn't closed, a header after a closing record, where the
writer begins the next message, and all after another limit. A line for each kind has the numbers; a kind of which
nothing is asked is a failure. Each case of which a call was asked is a check.
"""
import os

import model
import suite
from tests import kit

kit.library()
from lislink import LinkError  # noqa: E402: it finds the library by the environment
from tests.ffi.rows_link import Ends, Unknown  # noqa: E402
from tests.ffi.rows_records import Records  # noqa: E402


def is_right(answers, call, wanted):
    """Whether a call is answered as the row has it; None where the library can't be asked."""
    name, *words = call.split(" ")
    name = name.replace(".", "_")
    for one in answers:
        if hasattr(one, name):
            try:
                return one.is_right(name, words, wanted)
            except Unknown:
                return None
            except LinkError:
                # The library rejects what no call here is to have rejected.
                return False
    return None


def ask(case):
    """How many calls of a case were asked and left out, and the row that was answered wrong, if there is one."""
    answers, is_usual, asked, left_out = (Ends(), Records()), True, 0, 0
    for number, call, wanted in case:
        if call.startswith("limit "):
            is_usual = call == f"limit {model.USUAL}"
            continue
        good = is_right(answers, call, wanted) if is_usual else None
        if good is False:
            return asked + 1, left_out, (number, call, wanted)
        asked, left_out = asked + (good is True), left_out + (good is None)
    return asked, left_out, None


class Rows(kit.Test):
    def test_rows(self):
        for kind in suite.kinds():
            told = [(path, *ask(case)) for path in suite.files(kind) for case in suite.cases(path)]
            asked = [it for it in told if it[1]]
            for path, _, _, wrong in asked:
                number, call, wanted = wrong or (0, "", "")
                self.check(not wrong, f"{os.path.basename(path)}:{number}", f"{call[:200]}, wanted {wanted[:200]}")
            calls, left_out = (sum(it[at] for it in told) for at in (1, 2))
            print(f"{kind}: {len(asked)} cases, {len(told) - len(asked)} left out; {calls} calls, {left_out} left out")
            self.check(asked, f"{kind}: no call is asked")
