"""What is handed on, as a receiver reads it: each result under its patient, its sample and its test, or not at all."""
import random
from collections import Counter

from lislab.model.failures import Quarantined
from lislab.model.results import Coded, Reading
from lislab.outbound import export, oru
from lislab.model.store import COMPLETE, Stored
from tests.host import told
from tests.host.hosts import HostTest

#: Random messages of each test; of all three over 10,000.
MANY = 3400


def stored(body, key="18b0a0c0d0e0f00011223344", encoding="utf-8", **more):
    """A complete message that is kept."""
    one = Stored(1, key, "chemistry", "10.0.5.7", encoding, 1767225600.0, 1767225600.0, COMPLETE, "", None, body)
    return one._replace(**more)


def message(*rows, header="H|\\^&|||Analyzer 7"):
    """A message of these records."""
    return "".join(f"{row}\r" for row in [header, *rows, "L|1|N"]).encode()


class Plan:
    """A random message, and what a person would say of it: its results by patient and sample, or why nothing may go
    out; and the texts of its comments."""

    def __init__(self, rng, reading):
        self.rng, self.reading, self.rows, self.results, self.unsure = rng, reading, [], [], False
        self.comments = []
        self.is_control = rng.random() < 0.05
        self.has_comment(0.05)
        for number in range(1, rng.choice((1, 1, 2, 3)) + 1):
            self.add_patient(number)
        mode = "Q" if self.is_control else rng.choice(("P", ""))
        self.body = message(*self.rows, header=f"H|\\^&|||A^1|||||||{mode}")

    def has_comment(self, often):
        """Whether the record before has a comment, with a text that no other one has."""
        if self.rng.random() >= often:
            return False
        self.comments.append(f"a comment {self.rng.randrange(10**12)}")
        self.rows.append(f"C|1|I|{self.comments[-1]}")
        return True

    def add_patient(self, number):
        """A patient with or without an identity and a name."""
        rng = self.rng
        identity = rng.choice(("", "", f"P{rng.randrange(1000)}"))
        more = rng.choice(("", "", " ", "^^^HOSP", "^^^urn:x^MR")) if identity else rng.choice(("", "^^^"))
        is_sure = rng.random() > 0.03
        more = more if is_sure else rng.choice(("^7", "^^M10", "\\P1", "^^^H^MR^y")) if identity else "^^^P1"
        field = rng.choice((3, 4, 5))
        cells = ["P", str(number), "", "", "", rng.choice(("", "Doe^Jane"))]
        cells[field - 1] = identity + more
        self.rows.append("|".join(cells))
        self.has_comment(0.1)
        for at in range(1, rng.choice((1, 1, 2)) + 1):
            self.add_order(at, identity, is_sure)

    def add_order(self, at, identity, is_sure):
        """An order, with the sample where the line's setting has it, or missing, or somewhere else; of a patient of
        whom it is sure who that is, or not."""
        rng = self.rng
        sample = rng.choice(("", "S1", *[f"S{rng.randrange(10**6)}"] * 11))
        control = self.is_control or rng.random() < 0.15
        fields = {"": f"{sample}|", "O.4.3": f"|2001^05^   {sample}^B"}[self.reading.sample]
        if self.reading.sample == "" and rng.random() < 0.2:
            fields = f"|{sample}"
        if self.reading.sample == "" and rng.random() < 0.03:
            fields, sample = f"2001^05^{sample}|", ""
        action = "Q" if control and not self.is_control else rng.choice(("", "N"))
        self.rows.append(f"O|{at}|{fields}|{rng.choice(('', '^^^GLU'))}|R||||||{action}")
        count, has_comment = rng.choice((0, 1, 1, 2, 4)), self.has_comment(0.1)
        self.unsure |= (count > 0 or has_comment) and not (sample and (is_sure or control))
        codes = rng.sample("ABCDEFGH", count)
        for place, letter in enumerate(codes, 1):
            self.add_result(place, letter, None if control else identity or None, sample, control)

    def add_result(self, place, letter, identity, sample, control):
        """A result with a value that no other one has."""
        rng = self.rng
        if self.reading.test:
            field, code = f"^^^^{letter}^1", letter
        else:
            field, code = rng.choice((
                (f"^^^{letter}", letter), (letter, letter), (f"^^^{letter}^^^F", f"^^^{letter}^^^F"),
                (f"^^^^{letter}", f"^^^^{letter}"), (f"^^^  {letter} ", letter),
            ))
        if rng.random() < 0.02:
            field, code = rng.choice(("", "^^^")), ""
            self.unsure = True
        value = str(rng.randrange(10**12)) + rng.choice(("", ".5", " "))
        unit = rng.choice(("", "mmol/L", "10&S&9/L"))
        self.rows.append(f"R|{place}|{field}|{rng.choice(('', '  '))}{value}|{unit}|||||F")
        self.results.append((identity, control, sample, code, value.strip(), unit.replace("&S&", "^")))
        self.has_comment(0.2)


class Tables:
    """Those of a line, which has only settings."""

    def __init__(self, reading):
        self.reading = reading

    def applied(self, one):
        """A message by the line's settings."""
        return Coded(one, self.reading)


class AsTold(HostTest):
    """Random messages in each form."""

    def wrong(self, seed, form, wishes, read, comments):
        """Which of many random messages aren't handed on as they should be, with one wish or another: the first one, or
        nothing. `read` and `comments` are the reader's results and comments."""
        rng, count, kept_back = random.Random(seed), 0, 0
        for at in range(MANY):
            reading, counts = rng.choice((Reading(), Reading(), Reading(sample="O.4.3", test="5"))), Counter()
            plan = Plan(rng, reading)
            wish = wishes[len(plan.body) % len(wishes)]
            write = export.writer_of(export.Form(form, Tables(reading), wishes=wish, counts=counts))
            try:
                data = write(None) + write(stored(plan.body))
            except Quarantined:
                kept_back += 1
                if not plan.unsure:
                    return f"{at}: kept back: {plan.body}"
                continue
            rows, said = read(data), set(comments(data)) & set(plan.comments)
            found = sorted((row[:1] + row[2:7] for row in rows), key=lambda one: one[4])
            wanted = sorted(plan.results, key=lambda one: one[4])
            left = len(plan.comments) - len(said)
            if plan.unsure or found != wanted or counts["comments left out"] != left:
                return f"{at}: {found}, wanted {wanted}; {left} comments left out, {counts}: {plan.body}"
            count += len(rows)
        self.true("most are told, some are kept back", count > MANY and MANY // 20 < kept_back < MANY // 2,
                  f"{count} results, {kept_back} of {MANY} kept back")
        return ""

    def test_oru(self):
        """As ORU, with an OBR for each order, test or sample."""
        kinds = [oru.wishes_of([f"obr={one}"]) for one in ("order", "test", "sample")]
        self.same("as it should be", self.wrong(1, "oru", kinds, told.of_oru, told.comments_of_oru), "")

    def test_fhir(self):
        """As FHIR, half of them with systems of identities and samples."""
        systems = oru.wishes_of(["practice=urn:a", "laboratory=urn:b", "third=urn:c", "sample=urn:d"])
        found = self.wrong(2, "fhir", [oru.Wishes(), systems], told.of_fhir, told.comments_of_fhir)
        self.same("as it should be", found, "")

    def test_csv(self):
        """As a table, which has no comments."""
        found = self.wrong(3, "csv", [oru.Wishes()], lambda data: told.of_csv(data.decode()), lambda data: [])
        self.same("as it should be", found, "")
