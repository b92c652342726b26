"""Record files: normalize, table, and messages as data."""
import csv
import io
import json
import os
import random
import re
import resource
import subprocess
import sys

from lislink import Message, messages, read_all
from lislab.field.normalize import CHANGES
from tests import ROOT, kit
from tests.field.lab import FieldTest, lislab

SAMPLES = os.path.join(ROOT, "samples")
GOOD = (
    b"H|\\^&|||A 1\rP|1||4711||Doe^Jane\rO|1|S7|I9|^^^GLU\r"
    b"R|1|^^^GLU|5.4|mmol/L|3.9 to 6.1|N||F||op|20261120|20261121|A2\rL|1|N\r"
)
BAD = b"H|\\^&\rP|1\rR|1|^^^NA|139\rL|1|N\r"


HEAD = b"H|\\^&\r"
#: What `normalize` changes: the name, the input, the option, the output, and what it reports.
CHANGED = (
    ("CR LF", b"H|\\^&\r\nL|1\r\n", "--crlf", HEAD + b"L|1\r", ["1: CR LF became CR", "2: CR LF became CR"]),
    ("LF alone isn't CR LF", b"H|\\^&\nL|1\r\n", "--crlf", b"H|\\^&\nL|1\r", ["2: CR LF became CR"]),
    ("LF", b"H|\\^&\nL|1\n", "--lf", HEAD + b"L|1\r", ["1: LF became CR", "2: LF became CR"]),
    ("nothing is asked for", b"H|\\^&\r\nL|1\r\n", "", b"H|\\^&\r\nL|1\r\n", []),
    ("NUL", HEAD + b"P|1\0\0\rL|1\r", "--nul", HEAD + b"P|1\rL|1\r", ["2: NUL was left out, 2 times"]),
    ("blank lines", HEAD + b"\r\rL|1\r", "--blank", HEAD + b"L|1\r",
     ["2: an empty record was left out", "3: an empty record was left out"]),
    ("behind L", HEAD + b"L|1\rC|1|x\r" + HEAD + b"L|1\r", "--behind-l", (HEAD + b"L|1\r") * 2,
     ["3: a record after L was left out (C, 5 bytes)"]),
    ("the last CR", HEAD + b"L|1", "--last-cr", HEAD + b"L|1\r", ["2: the last record got its CR"]),
    ("L in both places", (HEAD + b"P|1\r") * 2, "--last-l", (HEAD + b"P|1\rL|1|N\r") * 2,
     ["3: L was put before this header", "5: L was put at the end"]),
    ("HL7's delimiters", b"H|^~\\&|||x^y~z\rL|1\r", "--header-5", b"H|~^\\|||x^y~z\rL|1\r",
     ["1: HL7's delimiters |^~\\& became repeat ~, component ^, escape \\: the header has H|~^\\"]),
)


def table(data, *options):
    ran = lislab("table", *options, data=data)
    return ran, list(csv.reader(io.StringIO(ran.text)))


def in_a_full_disk(words):
    """A run of lislab that can write no byte to a file."""
    limits = lambda: resource.setrlimit(resource.RLIMIT_FSIZE, (0, resource.RLIM_INFINITY))
    env = {**os.environ, "PYTHONPATH": f"{ROOT}/python/src:{ROOT}/lab/src", "PYTHONDONTWRITEBYTECODE": "1"}
    words = [sys.executable, "-m", "lislab", *words]
    return subprocess.run(words, env=env, capture_output=True, preexec_fn=limits, check=False)


def framed(number, record):
    from lislink import frame_bytes

    return frame_bytes(number % 8, True, record + b"\r")


def component(chance, four):
    """A random component: how it is written under these delimiters, and what it means, marks of highlighting apart."""
    mark, letters = four[3:4], dict(zip(four, "FRSE"))
    written, meant = b"", []
    for _ in range(chance.randrange(4)):
        piece = chance.choice(("^", "\\", "&", "|", "S", "E", "H", "&S&", "&H&", "high", "~", "é", "<H>", "<N>"))
        if piece in ("<H>", "<N>"):
            written += mark + piece[1:2].encode() + mark
            meant.append(piece)
            continue
        for one in piece.encode("latin-1"):
            escape = f"X{one:02X}" if chance.random() < 0.2 else letters.get(one, "")
            written += mark + escape.encode() + mark if escape else bytes([one])
        meant += piece
    return written, meant


def meaning_of(text):
    """What a component of a table's cell means, by the rules of the page."""
    names = {"&S&": "^", "&R&": "\\", "&E&": "&", "&H&": "<H>", "&N&": "<N>"}
    pieces = [one for one in re.split(r"(&[SREHN]&)", text) if one]
    return [mean for one in pieces for mean in ([names[one]] if one in names else one)]


class Records(FieldTest):
    def test_a_file_that_cannot_be_written(self):
        """What was in the file is still there, and the status says so."""
        path = kit.file_of(self, "results.csv", b"old")
        panel = os.path.join(SAMPLES, "panel.records")
        self.same("status", in_a_full_disk(["table", panel, "-o", path]).returncode, 3)
        self.same("the file", kit.bytes_of(path), b"old")

    def test_nothing_is_lost(self):
        """A cell of a table, and a list of JSON, has what the field means: an escaped delimiter is no delimiter."""
        chance, lost = random.Random(5), []
        for _ in range(1500):
            four = chance.choice((b"|\\^&", b"|~^\\", b"|^\\&", b"|@*#"))
            sizes = chance.choices((1, 1, 2), k=chance.choice((1, 1, 2)))
            field = [[component(chance, four) for _ in range(size)] for size in sizes]
            body = four[1:2].join(four[2:3].join(written for written, _ in some) for some in field)
            data = b"H" + four + b"\rP|1\rO|1|S\rR|1|t|" + body + b"\rL|1\r"
            wanted = [[meant for _, meant in some] for some in field]
            (message,) = [one.message for one in read_all(data)]
            result = next(message.results())[2]
            cell = [[meaning_of(one) for one in some.split("^")] for some in result.whole(4).split("\\")]
            parts = result.parts(4)
            nested = [[parts]] if isinstance(parts, str) else [parts] if isinstance(parts[0], str) else parts
            # In a list ^ and a backslash are what they are: only & has its name where it must.
            lists = [[[one for text in re.split(r"(&[EHN]&)", part) if text
                       for one in (meaning_of(text) if re.fullmatch(r"&[EHN]&", text) else text)]
                      for part in some] for some in nested]
            if cell != wanted or lists != wanted:
                lost.append((data, result.whole(4), parts))
        self.same("nothing is lost", lost[:3], [])

    def test_escaped_delimiters(self):
        """A value with an escaped delimiter reads otherwise than one with two components or repeats."""
        values = (b"a&S&b", b"a^b", b"a&R&b", b"a\\b", b"&H&a&N&", b"&E&H&E&a&E&N&E&", b"a & b", b"&X5E&")
        data = GOOD.replace(b"R|1|^^^GLU|5.4", b"\r".join(b"R|1|^^^GLU|" + value for value in values))
        for options in (["csv"], ["tsv"], ["json"], ["json", "--nested"]):
            lines = lislab("table", "--no-header", "--fields", "value", "--format", *options, data=data).lines
            self.same(f"{options}: values are told apart", len(set(lines)), len(values))
        flat = ["a&S&b", "a^b", "a&R&b", "a\\b", "&H&a&N&", "&E&H&E&a&E&N&E&", "a & b", "&S&"]
        cells = [row[0] for row in table(data, "--no-header", "--fields", "value")[1]]
        self.same("CSV", cells, flat)
        nested = ["a^b", ["a", "b"], "a\\b", [["a"], ["b"]], *flat[4:7], "^"]
        for options, wanted in (([], flat), (["--nested"], nested)):
            ran = lislab("table", "--format", "json", "--fields", "value", *options, data=data)
            self.same(f"JSON lines {options}", [json.loads(line)["value"] for line in ran.lines], wanted)
        self.same("--nested is for JSON", lislab("table", "--nested", data=data).status, 2)
        lines = [lislab("table", "--format", name, data=data).lines for name in ("json", "jsonl")]
        self.check(lines[0] == lines[1] and lines[0][0].startswith("{"), "jsonl is another name of json", repr(lines[1]))
        code = GOOD.replace(b"R|1|^^^GLU", b"R|1|^^^a&S&b")
        both = [table(one, "--no-header", "--fields", "test,R.3.4")[1][0] for one in (code, GOOD)]
        self.same("a component", both, [["a&S&b", "a&S&b"], ["GLU", "GLU"]])
        (rows,) = messages([GOOD.replace(b"5.4", b"a&S&b\\c^d")])
        message = Message(rows)
        for nested, wanted in ((False, "a&S&b\\c^d"), (True, [["a^b"], ["c", "d"]])):
            plain = message.to_dict(nested)["patients"][0]["orders"][0]["results"][0]
            self.same(f"as data, nested {nested}", plain["value"], wanted)
            self.same(f"as JSON, nested {nested}", json.loads(message.to_json(nested)), message.to_dict(nested))

    def test_normalize(self):
        samples = {name: kit.bytes_of(f"samples/{name}.records") for name in ("panel", "query", "escapes")}
        good = [(name, data, "--all", data, []) for name, data in samples.items()]
        for name, data, option, wanted, told in (*good, *CHANGED):
            ran = lislab("normalize", *filter(None, [option]), data=data)
            self.same(f"normalize: {name}", ran.output, wanted)
            rows = [row for row in ran.error.splitlines() if ": line " in row and "asked" not in row]
            self.same(f"normalize: {name}, told", rows, [f"lislab: line {one}" for one in told])

    def test_normalize_explained(self):
        link = b"\x05\x021H|\\^&\rP|1\x17A1\r\n\x022|x\r\x03C4\r\n\x023L|1\r\x0300\r\n\x04"
        ran = lislab("normalize", "--unframe", data=link)
        self.same("normalize: frames", ran.output, HEAD + b"P|1|x\rL|1\r")
        for name, data in (("R without O", BAD), ("O without P", HEAD + b"O|1\rL|1\r")):
            ran = lislab("normalize", "--all", data=data)
            self.same(f"normalize: {name} isn't fixed by --all", (ran.status, ran.output), (1, data))
            self.has(f"normalize: {name} names the option", ran.error, "--orders wasn't asked for")
            ran = lislab("normalize", "--orders", data=data)
            self.same(f"normalize: {name} by --orders", ran.status, 0)
            self.has(f"normalize: {name} says what is lost", ran.error, "has no ")
        for name in CHANGES:
            self.has("each change has its option", lislab("normalize", "--help").text, f"--{name}")
        mess = b"\xef\xbb\xbfH|\\^|||x\r\nP|1\nO|1|S7\r\n\r\nR|1|^^^GLU|5.4\0\r\nL|1"
        made, said = lislab("normalize", "--all", data=mess).output, lislab("normalize", "--explain", data=mess).text
        self.same("normalize: many at once", made, b"H|\\^&|||x\rP|1\rO|1|S7\rR|1|^^^GLU|5.4\rL|1\r")
        fixes = "fixed by: lislab normalize --bom --nul --crlf --lf --blank --header-3 --last-cr"
        self.has("normalize: explained in one line", said, fixes)
        self.same("normalize: nothing is left to explain", lislab("normalize", "--explain", data=GOOD).status, 0)

    def test_table(self):
        ran, rows = table(GOOD)
        self.same(
            "table: the line of names",
            rows[0],
            "sample patient test value unit range flag status date instrument".split(),
        )
        self.same(
            "table: a result", rows[1], ["S7", "4711", "GLU", "5.4", "mmol/L", "3.9 to 6.1", "N", "F", "20261121", "A2"]
        )
        self.same("table: the sample of field 4", table(GOOD, "--sample-from", "4")[1][1][0], "I9")
        self.same("table: no line of names", len(table(GOOD, "--no-header")[1]), 1)
        ran, rows = table(GOOD, "--fields", "s=O.3,P.6.2,result.operator,R.3,header.sender_name")
        self.same(
            "table: fields of choice",
            rows,
            [["s", "P.6.2", "result.operator", "R.3", "header.sender_name"], ["S7", "Jane", "op", "^^^GLU", "A 1"]],
        )
        self.same("table: no such field", lislab("table", "--fields", "X.3", data=GOOD).status, 2)
        escaped = GOOD.replace(b"5.4", b'a&F&b&X0D0A&"&E&')
        self.same("table: escapes are undone", table(escaped)[1][1][3], 'a|b\r\n"&')
        tab = lislab("table", "--format", "tsv", data=escaped.replace(b"&F&", b"&X09&")).lines
        self.same("table: TSV", (len(tab), tab[1].split("\t")[3]), (2, 'a\\tb\\r\\n"&'))
        told = [json.loads(line) for line in lislab("table", "--format", "json", data=escaped + GOOD).lines]
        self.same("table: JSON lines", [one["value"] for one in told], ['a|b\r\n"&', "5.4"])

    def test_table_of_bad_messages(self):
        ran, rows = table(GOOD + BAD + GOOD)
        self.same(
            "table: a bad message hides no later one",
            ([row[0] for row in rows], ran.status),
            (["sample", "S7", "S7"], 1),
        )
        self.has("table: a bad message is named", ran.error, "message 2: record 3 is rejected (G3)")
        cut = GOOD[: GOOD.index(b"L|1")]
        ran, rows = table(cut + GOOD)
        self.same("table: a message without L tells no result", (len(rows), ran.status), (2, 1))
        self.has("table: how many results were left", ran.error, "1 result before it isn't told")
        gbk = GOOD.replace(b"4711", "病人".encode("gbk"))
        ran, rows = table(gbk)
        ran, rows = table(gbk, "--encoding", "utf-8")
        self.check(ran.status == 1 and "--encoding" in ran.error, "table: another encoding is told", ran.error)
        ran, rows = table(gbk, "--encoding", "gbk")
        self.same("table: an encoding of choice", (rows[1][1], ran.status), ("病人", 0))
        self.same("table: no such encoding", lislab("table", "--encoding", "klingon", data=GOOD).status, 2)

    def test_letters(self):
        """Table and ladder read Latin-1, as a host does, and say of letters that they look like another encoding's."""
        not_latin = "the letters are not latin-1, perhaps gbk or windows-1252: name the encoding, as --encoding gbk"
        for letters, name, told in (
            ("Müller", "latin-1", ""),
            ("Müller", "utf-8", "the letters are those of utf-8: name the encoding, as --encoding utf-8"),
            ("“Müller”", "cp1252", not_latin),
            ("陶喆", "gbk", not_latin),
        ):
            records = GOOD.replace(b"4711", letters.encode(name))
            ran, rows = table(records)
            error = f"lislab: {told}\n" if told else ""
            self.same(f"table: {letters} in {name}", (rows[1][1], ran.error, ran.status),
                      (letters.encode(name).decode("latin-1"), error, int(bool(told))))
            ran, rows = table(records, "--encoding", name)
            self.same(f"table: {letters} by its name", (rows[1][1], ran.error, ran.status), (letters, "", 0))
            frames = b"".join(framed(at, row) for at, row in enumerate(records.split(b"\r")[:-1], 1))
            capture = b"> " + (b"\x05" + frames + b"\x04").hex().encode() + b"\n"
            self.same(f"ladder: {letters} in {name}", lislab("ladder", "-", data=capture).error, error)
            self.same(f"ladder: {letters} by its name", lislab("ladder", "-", "--encoding", name, data=capture).error, "")

    def test_table_as_the_program(self):
        panel = kit.bytes_of(os.path.join(SAMPLES, "panel.records"))
        mine = [
            row[:1] + row[2:8]
            for row in table(panel, "--fields", "sample,patient,R.3,value,unit,range,flag,status")[1][1:]
        ]
        program = [line.split("|") for line in self.lislink("results", data=panel).lines]
        self.same("table: as the program's results", mine, program)
        path = self.path(
            "session.capture",
            b"> 05\n"
            + b"".join(
                b"> " + framed(number, record).hex().encode() + b"\n"
                for number, record in enumerate(GOOD.splitlines(), 1)
            ),
        )
        self.same("table: of a capture", lislab("table", path).text, table(GOOD)[0].text)

    def test_messages(self):
        (rows,) = messages([GOOD])
        message = Message(rows)
        patient = message.patients[0]
        (order,) = patient.orders
        (result,) = order.results
        self.same(
            "message: names",
            (
                patient.name,
                order.specimen_id,
                order.instrument_specimen_id,
                result.value,
                result.unit,
                result.operator,
                message.header.sender_name,
            ),
            ("Doe^Jane", "S7", "I9", "5.4", "mmol/L", "op", "A 1"),
        )
        self.same(
            "message: parts", (patient.text(6, 0, 1), result.part(3, 0, 3), result.part(99)), ("Jane", b"GLU", None)
        )
        self.raises("message: no such name", AttributeError, lambda: result.nonsense)
        data = json.loads(message.to_json())
        self.same("message: JSON", data["patients"][0]["orders"][0]["results"][0]["value"], "5.4")
        self.same("message: no finding", message.findings(), [])

    def test_findings(self):
        noted = b"H|\\^&\rC|1|I|a\rP|1\rC|1|I|b\rC|3|I|c\rQ|1|^S\rM|1\rP|3\rO|1|S\rR|1|t|1\rC|1|I|d\rL|2\r"
        (rows,) = messages([noted])
        found = [(one.number, one.letter, one.position) for one in Message(rows).findings()]
        self.same("message: findings", found, [(5, "C", 2), (8, "P", 2), (12, "L", 1)])
        told = [
            tuple(map(int, line.split()[1::2]))
            for line in self.lislink("check", data=noted).lines
            if line.startswith("finding")
        ]
        self.same("message: findings as the program's", [(one[0], one[2]) for one in found], told)
        self.same(
            "message: notes",
            [len(entry.notes) for entry in Message(rows).entries],
            [1, 0, 2, 0, 0, 1, 0, 0, 0, 1, 0, 0],
        )
        kinds = [type(one).__name__ for one in read_all(BAD + GOOD + b"x\r" + GOOD + b"H|\\^&\r" + GOOD)]
        self.same("message: all that can be read", kinds, ["Fault", "Found", "Fault", "Found", "Fault", "Found"])
