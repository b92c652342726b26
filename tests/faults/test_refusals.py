"""Each growth of memory of the program fails in turn: `lislink` is run by each of its commands. The calls of the crates
are tried so in tests/proofs."""
import itertools

import model
from tests import kit
from tests.faults.shim import Shim

# Frames, as an analyzer sends them.

def frame(number, text, end):
    """A frame's digits."""
    body = b"%d%s%c" % (number % 8, text, end)
    return (b"\x02%s%02X\r\n" % (body, sum(body) % 256)).hex()


# Runs of the program

SESSION = b"> 05\n< 06\n> 0231411738390d0a\n< 06\n> 0232410337360d0a\n< 06\n> 0233420337380D0A\n< 15\n> 04\n"
SECOND = b"capture 2\nS busy\n> 05\nS ready\n> 05\n< 1506\n" + b"> 0231" + b"4142" * 60 + b"033337430d0a\n"
# A text of 20 frames, whose replies add up, and one more.
LONGER = b"> 05\n" + b"".join(b"> %s\n" % frame(k, b"A" * 200, model.ETX if k > 20 else model.ETB).encode()
                             for k in range(1, 23))
LINK = bytes.fromhex("05 0231487c5c5e260d0345350d0a 02324c7c317c4e0d0330350d0a 04")
MESSAGE = (b"H|\\^&\rP|1\rO|2|S7\rR|1|^^^GLU|5.4|mmol/L|3.9 to 6.1|N||F\rC|1|I|fasting\rR|2|A&F&B|&X0D&\\1^2\rL|1|N\r")
PANEL = b"H|\\^&\rP|1\rO|1|S7\r" + b"R|1|^^^GLU|5.4\rC|1|&H&a&N&\r" * 20 + b"L|1|N\r"
#: The input of commands, by its kind.
RUNS = {"link": (LINK, b"\x05" * 3), "capture": (SESSION, SECOND, SECOND + SESSION[:4], b"> 05\n\nT\n", LONGER),
        "records": (MESSAGE, MESSAGE * 2 + b"P|1\r", MESSAGE + b"H|\\^&\rR|1\r", PANEL)}
# Commands that take no memory while they run: only the program's start does.
WITHOUT_MEMORY = ("show", "upgrade")
# The command that compares no replies: it takes no memory for them.
WITHOUT_REPLIES = "texts"
ENQUIRY = b"> 05\n"
# How many growths 8,000 results may take: their text has under 2 to the 18th bytes, and some more things grow.
MOST_GROWTHS = 40
# Commands whose text has no closing line: the text of a run without memory may lack nothing.
UNCLOSED = ("texts", "results")


def try_run(shim, program, command, data, test):
    """Runs a command with each growth failing in turn, until a run has none left; how many failed."""
    wanted = model.run(command, data)
    error = f"{wanted.error}\n".encode() if wanted.error else b""
    whole, name = (wanted.output, wanted.status, error), command.split()[0]
    for growth in itertools.count(1):
        ran = shim.run([program, *command.split()], data, armed=1, refuse=growth)
        told = (ran.output, ran.status, ran.error)
        if not ran.table["refused"]:
            test.need(told == whole, lambda: f"{command} with memory: {told}, wanted {whole}")
            return growth - 1
        is_prefix = wanted.output.startswith(ran.output) and (name in UNCLOSED or ran.output != wanted.output)
        if name in WITHOUT_MEMORY:
            is_prefix = not ran.output
        is_k4 = told[1:] == (3, b"lislink: K4\n") and is_prefix
        test.need(is_k4 or told == whole, lambda: f"{command}, growth {growth}: {told}, wanted a prefix of {whole}")


def long_message(count):
    """A message of so many results."""
    return b"H|\\^&\rP|1\rO|1|S7\r" + b"".join(b"R|%d|^^^GLU|5.4\r" % at for at in range(1, count + 1)) + b"L|1|N\r"


def try_commands(shim, program, test):
    """Tries all commands; how many growths failed."""
    refused = 0
    for command, known in model.COMMANDS.items():
        name = command.split()[0]
        with test.subTest(command):
            growths = [try_run(shim, program, command, data, test) for data in (b"",) + RUNS[known.reads]]
            refused += sum(growths)
            if name in WITHOUT_MEMORY:
                test.need(len(set(growths)) == 1, lambda: f"{command} takes memory for its input: {growths}")
            if name == WITHOUT_REPLIES:
                few, many = (try_run(shim, program, command, ENQUIRY * replies, test) for replies in (1, 600))
                test.need(few == many, lambda: f"{command} takes memory for replies: {few} growths, then {many}")
    print(f"refusals: runs of the program: {refused} growths refused")


class Refusals(kit.Test):
    @classmethod
    def setUpClass(cls):
        cls.shim, cls.lislink = Shim(), kit.built("lislink")

    def test_commands(self):
        try_commands(self.shim, self.lislink, self)

    def test_room_is_used_again(self):
        for name in ("replay", "texts"):
            once, often = (self.shim.run([self.lislink, name], SESSION * count, armed=1).table["growths"]
                           for count in (1, 600))
            self.need(0 < once == often, lambda: f"{name} takes memory for each text: {once} growths, then {often}")

    def test_held_text_grows_by_doubling(self):
        """The text that is held until a message is whole grows ever more seldom: each growth may move all of it."""
        for name in ("check", "results"):
            few, many = (self.shim.run([self.lislink, name], long_message(count), armed=1).table["growths"]
                         for count in (1_000, 8_000))
            self.check(0 < few <= many <= MOST_GROWTHS,
                       f"{name} grows too often: {few} growths for 1,000 results, {many} for 8,000")
