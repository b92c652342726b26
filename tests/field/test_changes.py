"""What `normalize` makes of files of records: a result that is changed or gone is printed, over all samples and over
generated files, whose results the test knows."""
import glob
import os
import random

from lislink import read_all
from lislab.field import normalize
from lislink.message import Found
from tests import ROOT, kit
from tests.field.lab import FieldTest, lislab

FILES = 10_000
RECORDS = [b"H|\\^&|||A", b"P|1||4711||Doe^Jane", b"O|1|S7||^^^GLU", b"R|1|^^^GLU|5.4|mmol/L", b"R|2|^^^MC|7", b"L|1|N"]
GOOD = b"".join(record + b"\r" for record in RECORDS)
WORDS = (b"<CR>", b"[CR]", b"{CR}", b"<cr>", b"\\r", b"^M", b"<0D>", b"[0x0D]", b"&#13;", b"%0D%0A", b"\\x0d", b"<LF>",
         b"<CR><LF>", b"\\r\\n")
ENDS = (b"", b"\n", b"\r\n", b"\r")
#: Values as they mean, some of which look like what a dialect writes around them.
VALUES = (b"5.4", b"139", b"<0.5", b"", b"positive", b"a|b", b"AT&T", b"x\\y", b"1^2", b"<CR>", b"[CR] seen", b"A\xe9",
          b"8F", b"M", b"\\r", b"R", b"3R", b"7.2 ", b"\xff", b"&S\x1d&")


def written(value, four):
    """A component as a sender writes it: its delimiters escaped, if the header has an escape."""
    mark = four[3:4]
    letters = dict(zip(four, b"FRSE"))
    return b"".join(mark + bytes([letters[one]]) + mark if one in letters else bytes([one]) for one in value)


class File:
    """A file of one or two messages: its records, and its results as they mean."""

    def __init__(self, chance):
        self.chance, self.records, self.results = chance, [], []
        self.head = chance.choices([b"|\\^&", b"|\\^", b"|^~\\&", b"|\\^&~"], [8, 1, 1, 1])[0]
        self.four = b"|~^\\" if self.head == b"|^~\\&" else self.head[:4]
        for _ in range(chance.choice((1, 1, 2))):
            self.message()

    def message(self):
        chance = self.chance
        self.records.append(b"H" + self.head + chance.choice((b"", b"|||Lab 1", b"|||Lab^M", b"|||Lab|||||||1")))
        for patient in range(chance.choice((1, 1, 2))):
            who = b"%d" % chance.randrange(1000, 9999)
            self.records.append(b"P|%d||%s||Doe^%s" % (patient + 1, who, chance.choice((b"Jane", b"M", b"R"))))
            for order in range(chance.choice((0, 1, 1, 2))):
                sample = b"S%d" % chance.randrange(100)
                self.records.append(b"O|%d|%s||^^^PAN" % (order + 1, sample))
                for result in range(chance.choice((1, 1, 3))):
                    self.result(result + 1, who, sample)
        self.records.append(b"L|1|N")

    def result(self, number, who, sample):
        chance = self.chance
        test, values = chance.choice((b"GLU", b"MC", b"K", b"R")), chance.choices(VALUES, k=chance.choice((1, 1, 2)))
        if len(self.four) == 3:
            values = [bytes(one for one in value if one not in self.four) for value in values]
        repeats = self.four[1:2].join(written(value, self.four) for value in values)
        tail = chance.choice((b"", b"|mmol/L", b"|mmol/L|3 to 6|N||F"))
        self.records.append(b"R|%d|^^^%s|" % (number, test) + repeats + tail)
        meant = [[value] for value in values] if self.four[1:2] in repeats else [values]
        self.results.append((who, sample, test, meant))

    def data(self):
        """The bytes in a dialect, and whether a byte was put into a value's middle, or a result after L."""
        chance = self.chance
        records = list(self.records)
        way = chance.randrange(12)
        if way == 0:
            return self.framed(records)
        if way == 1:
            end = chance.choice(WORDS) + chance.choice(ENDS)
        else:
            end = chance.choices((b"\r", b"\r\n", b"\n", b"\r\n\r\n", b"\r\0\0"), (6, 3, 3, 1, 1))[0]
        case = chance.random()
        if case < 0.1:
            self.damage(records)
        elif case < 0.2:
            records = records[:-1]
        if chance.random() < 0.1:
            records = [chance.choice((b" ", b"\t", b"")) + record for record in records]
        data = end.join(records) + (end if chance.random() < 0.9 else b"")
        data += chance.choices((b"", b"\x1a", b"\r\n"), (8, 1, 1))[0]
        if chance.random() < 0.05:
            return data.decode("latin-1").encode(chance.choice(("utf-16", "utf-16-le")))
        return chance.choices((b"", b"\xef\xbb\xbf"), (9, 1))[0] + data

    def framed(self, records):
        out, size = b"\x05", self.chance.choice((240, 20))
        for number, record in enumerate(records, 1):
            pieces = [record[at : at + size] for at in range(0, len(record), size)]
            for piece in pieces[:-1]:
                out += b"\x02%d%s\x17A0\r\n" % (number % 8, piece)
            out += b"\x02%d%s\r\x03A0\r\n" % (number % 8, pieces[-1])
        return out + b"\x04"

    def damage(self, records):
        """What a change must not hide: a byte in the place of a letter, or a result that is outside its message."""
        place = self.chance.choice([at for at, one in enumerate(records) if one[:1] in b"RL"])
        if records[place][:1] == b"L":
            records.insert(place + 1, b"R|1|^^^GLU|5.4")
            self.results.append((b"", b"", b"GLU", [[b"5.4"]]))
        else:
            at = self.chance.randrange(7, len(records[place]) - 1)
            byte = self.chance.choice((b"\0", b"\x1a"))
            records[place] = records[place][:at] + byte + records[place][at + 1 :]


def results(found):
    """The results of messages as the proved reader reads them."""
    for one in found:
        for patient, order, result in one.message.results():
            yield patient.part(4), order.part(3), result.part(3, 0, 3), result.row.field(4)


class Changes(FieldTest):
    def test_words(self):
        """Records that end in a word for CR, with a line end or without: fixed, or reported, and never read as
        values."""
        for word in WORDS:
            for end in ENDS:
                data = b"".join(record + word + end for record in RECORDS)
                name = f"records end in {word + end!r}"
                ran, explained = lislab("normalize", "--all", data=data), lislab("normalize", "--explain", data=data)
                if word == b"^M" and not end:  # a component that begins with M looks the same
                    self.same(f"{name}: status", (ran.status, explained.status), (1, 1))
                    self.has(f"{name}: told", ran.error, "a result is gone: 'R|1|^^^GLU|5.4|mmol/L'")
                    self.check("fixed by" not in explained.text, f"{name}: explained", explained.text)
                else:
                    self.same(f"{name}: fixed", (ran.status, ran.output), (0, GOOD))
                    self.has(f"{name}: explained", explained.text, "fixed by: lislab normalize --cr-words\n")
                for option in ("--lf", "--crlf", "--last-cr", "--last-l"):
                    ran = lislab("normalize", option, data=data)
                    self.same(f"{name}: {option} alone", ran.status, 1)
        for value in (b"<CR>", b"5[CR]", b"a\\r", b"Doe^M", b"x\\rC"):
            data = GOOD.replace(b"mmol/L", value)
            ran = lislab("normalize", "--all", data=data)
            self.same(f"a value that looks like one: {value!r}", (ran.status, ran.output), (0, data))

    def test_one_line(self):
        """Records on one line, each with ^M for its CR: fixed if no value can begin with M and a record's letter,
        else reported."""
        plain = [record for record in RECORDS if b"MC" not in record]
        lines = {
            "one message": plain,
            "two messages": plain * 2,
            "a comment": [*plain[:4], b"C|1|I|seen by ^Mary", *plain[4:]],
            "two results": [*plain[:4], b"R|2|^^^K|139|mmol/L", *plain[4:]],
            "a sender that ends in ^M": [b"H|\\^&|||Lab^M", *plain[1:]],
            "empty fields": [plain[0], b"P|1||4711|||", *plain[2:]],
        }
        for name, records in lines.items():
            for end in (b"", b"\n", b"\r\n"):
                data = b"".join(record + b"^M" for record in records) + end
                ran, explained = lislab("normalize", "--all", data=data), lislab("normalize", "--explain", data=data)
                wanted = b"".join(record + b"\r" for record in records)
                self.same(f"{name}, {end}: fixed {ran.error}", (ran.status, ran.output), (0, wanted))
                self.has(f"{name}, {end}: explained", explained.text, "fixed by: lislab normalize --cr-words\n")
                self.has(f"{name}, {end}: told", ran.error, "line 1: ^M became a CR")
        doubtful = {
            "a test MC with the value 7": [*plain[:4], b"R|2|^^^MC|7", *plain[4:]],
            "a test MC with the value 1": [*plain[:3], b"R|1|^^^MC|1|mg/L", *plain[4:]],
            "a test GLU^MC with the value 1": [*plain[:3], b"R|1|^^^GLU^MC|1|mg/L", *plain[4:]],
            "a test MR with the value 2": [*plain[:4], b"R|2|^^^MR|2|mg/L", *plain[4:]],
            "an order of the test GLU^MC": [*plain[:2], b"O|1|S7||^^^GLU^MC|1", *plain[3:]],
            "5 mm": [*plain[:3], b"R|1|^^^GLU|5^MM|1", *plain[4:]],
            "no L": plain[:-1],
        }
        for name, records in doubtful.items():
            data = b"".join(record + b"^M" for record in records)
            ran, explained = lislab("normalize", "--all", data=data), lislab("normalize", "--explain", data=data)
            self.same(f"{name}: status {ran.output}", (ran.status, explained.status), (1, 1))
            self.has(f"{name}: told", ran.error, "a result is gone: 'R|")
            self.check("fixed by" not in explained.text, f"{name}: explained", explained.text)

    def test_told(self):
        """What a change does to a result is printed, and the status is 1."""
        for name, data, option, words in (
            ("a result after L", GOOD + b"R|1|^^^NA|139\r", "--behind-l", "line 7: a result is gone: 'R|1|^^^NA|139'"),
            ("NUL in a value", GOOD.replace(b"5.4", b"5\x004"), "--nul",
             "line 4: a result is changed: 'R|1|^^^GLU|5<NUL>4|mmol/L' is now 'R|1|^^^GLU|54|mmol/L'"),
            ("Ctrl-Z in a value", GOOD.replace(b"5.4", b"5\x1a4"), "--ctrl-z", "line 4: a result is changed"),
            ("an escape that wasn't", GOOD.replace(b"\\^&", b"\\^").replace(b"5.4", b"a&F&b"), "--header-3",
             "line 4: a result is changed"),
            ("GS that an escape would swallow", GOOD.replace(b"5.4", b"&S\x1d&"), "--bytes",
             "line 4: a result is changed"),
            ("NUL in a sample's number", GOOD.replace(b"S7", b"S\x007"), "--nul",
             "a result has another order above it"),
        ):
            for options in ([option], ["--all"]):
                ran = lislab("normalize", *options, data=data)
                self.same(f"{name}: status of {options[0]}", ran.status, 1)
                self.has(f"{name}: told by {options[0]}", ran.error, words)
            self.check("fixed by" not in lislab("normalize", "--explain", data=data).text, f"{name}: explained")
        long = GOOD.replace(b"L|1", b"R|3|^^^K|" + b"x" * 66000 + b"\rC|1|I|y\rR|4|^^^NA|139\rL|1")
        ran = lislab("normalize", "--long", data=long)
        kept = GOOD.replace(b"L|1", b"R|4|^^^NA|139\rL|1")
        self.same("a result that is too long, and its comment", (ran.status, ran.output), (1, kept))
        self.has("it is told", ran.error, "line 6: a record was left out (R, 66009 bytes): it is too long to be read")
        self.has("its comment is told", ran.error, "line 7: a record was left out (C, 7 bytes): it is on a record")
        order = GOOD.replace(b"S7", b"S7" + b"x" * 66000)
        self.same("an order is never left out", lislab("normalize", "--long", data=order).output, order)
        for name, data, option in (
            ("a comment after L", GOOD + b"C|1|I|made by a tool\r", "--behind-l"),
            ("NUL at the end of a record", GOOD.replace(b"mmol/L", b"mmol/L\0\0"), "--nul"),
            ("no escape is in a value", GOOD.replace(b"\\^&", b"\\^").replace(b"5.4", b"AT&T"), "--header-3"),
            ("FF is escaped", GOOD.replace(b"5.4", b"5\xff4"), "--bytes"),
            ("GS is escaped, next to the escape's byte", GOOD.replace(b"5.4", b"&\x1d&4"), "--bytes"),
            ("a comment that is too long", GOOD.replace(b"L|1", b"C|1|I|" + b"x" * 66000 + b"\rC|2|I|y\rL|1"), "--long"),
            ("FF is escaped, by the name of old", GOOD.replace(b"5.4", b"5\xff4"), "--escape"),
            ("an order is put in", b"H|\\^&\rP|1\rR|1|^^^GLU|5.4\rL|1|N\r", "--orders"),
        ):
            ran = lislab("normalize", option, data=data)
            self.same(f"{name}: status of {option} {ran.error}", ran.status, 0)

    def test_bad_headers(self):
        """Delimiters that no header may have are rejected, and the results are still compared."""
        for head in (b"H|\\^ ", b"H|a^&", b"H||^&", b"H|\\^\x7f", b"H|", b"H"):
            ran = lislab("normalize", "--all", data=GOOD.replace(b"H|\\^&", head).replace(b"5.4", b"a b\x7fc&S&"))
            self.same(f"a header {head!r}: {ran.error[-80:]}", ran.status, 1)

    def test_samples(self):
        """No change that `--all` makes in a sample changes a result, and a sample that is read stays as it is."""
        paths = glob.glob(os.path.join(ROOT, "samples", "**", "*.records"), recursive=True)
        self.check(len(paths) > 25, "there are samples", str(len(paths)))
        fixed = 0
        for path in paths:
            data = kit.bytes_of(path)
            out, told, _ = normalize.normalize(data, set(normalize.ALL))
            self.same(f"{os.path.basename(path)}: no result is changed", list(normalize.changed_lines(data, out)), [])
            fixed += bool(told) and not any(normalize.rejected_lines(out))
        self.check(fixed > 15, "samples are fixed", str(fixed))

    def test_generated(self):
        """If nothing is printed of a file, its results are those that it was made of; most files are fixed."""
        chance, wrong, good, told = random.Random(31), [], 0, 0
        names = list(normalize.CHANGES)
        for number in range(FILES):
            file = File(chance)
            data = file.data()
            asked = set(normalize.ALL) if number % 4 else set(chance.sample(names, chance.randrange(len(names) + 1)))
            out, _, _ = normalize.normalize(data, asked)
            found = list(read_all(out))
            if not all(isinstance(one, Found) for one in found):
                continue
            if any(normalize.changed_lines(data, out)):
                told += 1
                continue
            good += 1
            if list(results(found)) != file.results:
                wrong.append((data, sorted(asked) if number % 4 == 0 else "--all"))
        self.same("no result is changed or gone unsaid", wrong[:3], [])
        self.check(good > FILES // 2 and told > FILES // 100, "files are fixed, and others told", f"{good}, {told}")
