"""Files of orders, the records of orders, and what a query asks for."""
from lislab.model.asks import Asks
from lislab.model.book import Wanted
from lislink.order import ANSWERED, QUERIED, Order, OrderError, failure, nothing_of, orders_of, texts_of
from lislab.model.query import echoed, query_of
from lislink.records import messages
from tests.host.hosts import HostTest

#: What a file holds, and the orders and faults that are in it by line.
FILES = {
    "CSV": (b"sample,tests\nS1,GLU K\nS2,NA;CL\n", {2: ("S1", ("GLU", "K")), 3: ("S2", ("NA", "CL"))}),
    "CSV with semicolons": (b"\xef\xbb\xbfTests;Sample\r\nGLU,K;S1\r\n", {2: ("S1", ("GLU", "K"))}),
    "JSON lines": (b'{"sample": "S1", "tests": ["A B"]}\n', {1: ("S1", ("A B",))}),
    "records": (b"H|\\^&\nP|1\nO|1|S1||^^^GLU\\^^^K|R\nL|1\n", {3: ("S1", ("GLU", "K"))}),
    "no test": (b"sample,tests\nS1,\nS2,K\n", {2: None, 3: ("S2", ("K",))}),
    "no sample": (b"sample,tests\n,K\n", {2: None}),
    "a priority": (b"sample,tests,priority\nS1,K,Z\n", {2: None}),
    "a date": (b"sample,tests,birth\nS1,K,1.1.1970\n", {2: None}),
    "no names": (b"S1,K\nS2,K\n", {1: None}),
    "too many cells": (b"sample,tests\nS1,K,x\n", {2: None}),
    "another column": (b'{"sample": "S1", "tests": "K", "colour": "red"}\n', {1: None}),
    "a field of another's": (b"sample,tests,O.5\nS1,K,x\n", {1: None}),
    "tests with a plus": (b"sample,tests\nS1,1.0+300+1.0\n", {2: ("S1", ("1.0+300+1.0",))}),
    "an action": (b"sample,tests,action\nS1,K,Z\nS2,K,C\n", {2: None, 3: ("S2", ("K",))}),
    "HL7": (b"\x0bMSH|^~\\&|LIS\rPID|1\r", {1: None}),
    "no JSON": (b'{"sample": \n', {1: None}),
    "no object": (b'{"sample": "S1", "tests": "K"}\n[1]\n', {1: ("S1", ("K",)), 2: None}),
    "a control byte": (b'{"sample": "S\\u0005", "tests": "K"}\n', {1: None}),
    "cut records": (b"H|\\^&\nP|1\nO|1|S1", {3: None}),
    "another encoding": (b"sample,tests,name\nS1,K,M\xfcller\nS2,K,Doe\n", {2: None, 3: ("S2", ("K",))}),
    "records in another encoding": (b"H|\\^&\nP|1||||M\xfcller\nO|1|S1||^^^K\nL|1\n", {2: None}),
    "JSON in another encoding": (b'{"sample": "S1", "tests": "K"}\n{"sample": "\xfc", "tests": "K"}\n',
                                 {1: ("S1", ("K",)), 2: None}),
    "another column of CSV": (b"sample,tests,barcode\nS1,K,1\nS2,K,2\n", {1: None}),
    "nothing": (b"", {}),
}


def tests_of(row):
    """The samples and tests of a row of `orders_of`; None if it is no order."""
    return None if isinstance(row, str) else (row.sample, row.tests)


class Files(HostTest):
    """Files of orders, and the records of orders."""

    def test_files(self):
        """Each form of a file, with what is wrong in it."""
        for name, (data, wanted) in FILES.items():
            self.same(name, {line: tests_of(found) for line, found in orders_of(data)}, wanted)

    def test_records(self):
        """The records of orders, worked by hand."""
        one = Order("S7", ("GLU", "K|X^"), patient="P1", name="Doe^Jane", birth="19700101", sex="F", priority="S")
        rows = texts_of([one, Order("S8", ("NA",))], "latin-1", report=QUERIED, end=ANSWERED, clock=0)
        self.same("header", rows[0].split(b"|")[:5], [b"H", b"\\^&", b"", b"", b"lislab"])
        self.same("patient", rows[1], b"P|1|P1|||Doe^Jane||19700101|F\r")
        self.same("order", rows[2], b"O|1|S7||^^^GLU\\^^^K&F&X&S&|S||||||N||||||||||||||Q\r")
        self.same("others", rows[3:], [b"P|2\r", b"O|1|S8||^^^NA|R||||||N||||||||||||||Q\r", b"L|1|F\r"])
        for wrong in (Order("S\u0416", ("K",)), Order("S" * 70000, ("K",))):
            with self.assertRaises(OrderError):
                texts_of([wrong], "latin-1")
            self.true("can't be written", True)

    def test_more(self):
        """What an order can say besides: dilution, specimen, action, physician, rack, position, and fields by their
        numbers."""
        more = {"dilution": "10", "specimen": "Urine", "action": "C", "physician": "Roe^Ann", "rack": "2001",
                "position": "05", "O.19": "x", "O.21.2": "y", "P.14": "Dr. Poe"}
        rows = texts_of([Order("S7", ("GLU", "K"), more=tuple(more.items()))], "latin-1", clock=0)
        self.same("patient", rows[1], b"P|1||||||||||||Dr. Poe\r")
        self.same("order", rows[2], b"O|1|S7|2001^05|^^^GLU^10\\^^^K^10|R||||||C||||Urine|Roe^Ann||x||^y|||||O\r")
        head = "sample,tests," + ",".join(more)
        row = "S7,GLU K," + ",".join(more.values())
        found = dict(orders_of(f"{head}\n{row}\n".encode()))[2]
        self.same("of a file", dict(found.more), more)
        found = dict(orders_of(b"".join(rows)))
        self.same("of records", dict(found[3].more),
                  {"dilution": "10", "specimen": "Urine", "action": "C", "physician": "Roe^Ann"})

    def test_nothing(self):
        """The answer if there is no order; the query's record is written under the usual delimiters."""
        one = self.query(b"Q|1|^S9||^^^ALL")
        self.same("L-I", [row[:5] for row in nothing_of(one, "L-I")], [b"H|\\^&", b"L|1|I"])
        self.same("Q-X", nothing_of(one, "Q-X")[1:], [b"Q|1|^S9||^^^ALL||||||||X\r", b"L|1|N\r"])
        self.same("silence", nothing_of(one, "silence"), [])
        one = self.query(b"Q!1!~S&T&9\\8", b"H!\\~&")
        self.same("other delimiters", nothing_of(self.query(b"Q!1!~S9^8", b"H!\\~&"), "Q-X")[1],
                  b"Q|1|^S9&S&8||||||||||X\r")
        self.same("an error", failure()[1], b"L|1|Q\r")

    @staticmethod
    def query(text, head=b"H|\\^&"):
        """A query's record."""
        return next(messages([head + b"\r" + text + b"\r" + text[:0] + b"L" + head[1:2] + b"1\r"]))[1]

    def test_queries(self):
        """What a query asks for, by the settings of its line."""
        every, plain, third = {"all": True}, {}, {"sample": 3}
        sysmex, roche = b"2001^05^   S123^B", b"^^          S77^12^50001^1^^S1^SC"
        rows = [
            (b"Q|1|^S7||^^^ALL||||||||O", plain, (["S7"], "", "", False)),
            (b"Q|1|S7", plain, (["S7"], "", "", False)),
            (b"Q|1|P1^S7\\P2^ S8 ", plain, (["S7", "S8"], "", "", False)),
            (b"Q|1|^^S7", plain, (["S7"], "", "", False)),
            (b"Q|1|" + sysmex, third, (["S123"], "", "", False)),
            (b"Q|1|" + roche, third, (["S77"], "", "", False)),
            (b"Q|1|^S7", third, ([], "", "", False)),
            (b"Q|1|^S1|^S5", plain, ([], "S1", "S5", False)),
            (b"Q|1|ALL", plain, ([], "", "", False)),
            (b"Q|1|ALL", every, ([], "", "", True)),
            (b"Q|1|^||ALL||||||||O", every, ([], "", "", False)),
            (b"Q|1|||ALL", every, ([], "", "", False)),
            (b"Q|1|ALL||||20261101|20261128120000", every, ([], "", "", True, "20261101", "20261128120000")),
            (b"Q|1|^S7||||20261128", plain, (["S7"], "", "", False)),
            (b"Q|1|^S1|^S5||ALL|20261101|x", plain, ([], "S1", "S5", False, "20261101", "")),
        ]
        for text, given, wanted in rows:
            found = query_of(self.query(text), "latin-1", Asks(**given)).wanted
            told = (list(found.samples), found.first, found.last, found.everything)
            dates = (found.since, found.until)
            self.same(f"{text.decode()} {given}", (*told, *dates) if any(dates) else told, wanted)
        for text, cancels in ((b"Q|1|^S7||||||||||A", True), (b"Q|1|^S7||||||||||X", True), (b"Q|1|^S7", False)):
            self.same(text.decode(), query_of(self.query(text), "latin-1").cancels, cancels)
        for given, wanted in (((3, 1), b"2001^05^   S123^B"), ((4, 4), b"B"), ((3, 5), b"")):
            asks = Asks(3, False, given)
            one = query_of(self.query(b"Q|1|" + sysmex), "latin-1", asks)
            self.same(f"echo {given}", b"^".join(echoed(one, asks, "S123", "latin-1")), wanted)

    def test_ranges(self):
        """Which samples are in a range: numbers of one length, numbers, or texts."""
        rows = {("9", "11"): ["9", "10", "11"], ("0009", "0011"): ["0010"], ("A1", "B9"): ["A5"]}
        samples = ["8", "9", "10", "11", "12", "0010", "A5", "C1", "0008"]
        for (first, last), wanted in rows.items():
            self.same(f"{first} to {last}", [one for one in samples if Wanted((), first, last).holds(one, "")], wanted)

    def test_dates(self):
        """Dates are compared as far as both are written."""
        rows = {
            ("20261128", "20261128", "20261128"): True,
            ("202611281530", "20261128", "20261128"): True,
            ("20261128", "202611281200", ""): True,
            ("202611281100", "202611281200", ""): False,
            ("202611281300", "", "202611281200"): False,
            ("20261127", "20261128", ""): False,
            ("20261129", "", "20261128"): False,
            ("20261129", "", ""): True,
            ("", "20261128", "20261128"): True,
        }
        for (date, since, until), wanted in rows.items():
            self.same(f"{date} {since}-{until}", Wanted(since=since, until=until).is_then(date), wanted)
