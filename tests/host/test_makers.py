"""The makers' analyzers of `samples/makers`: each play from the wire to ORU, FHIR and a table, against what a person
wrote."""
import glob
import json
import os
import re

from lislab.outbound import export
from lislab.model import lines, options
from lislab.outbound import oru
from lislab.outbound.tables import Tables
from tests import kit
from tests.host import fhir_r4, told
from tests.host.hosts import Host, HostTest, lislab
from tests.host.test_out import messages_of

FOLDER = "samples/makers"
#: The systems of identities and samples of the files of FHIR.
SYSTEMS = oru.wishes_of([f"{name}=urn:oid:1.2.{at}" for at, name in enumerate(("practice", "laboratory", "third"), 3)]
                        + ["sample=urn:oid:1.2.6"])
NAMES = sorted(os.path.basename(path)[: -len(".play")] for path in glob.glob(f"{FOLDER}/*.play"))


def read(text):
    """JSON with each number as it is written."""
    return json.loads(text, parse_float=lambda digits: ("number", digits), parse_int=lambda digits: ("number", digits))


def resources_of(bundle):
    """The resources of a Bundle, as the files have them: addresses by the kind and its number in the Bundle, TIME for
    when the message came, ID for what is made of keys."""
    entries, counts = read(bundle)["entry"], {}
    for one in entries:
        kind = one["resource"]["resourceType"]
        counts[kind] = counts.get(kind, 0) + 1
        bundle = bundle.replace(one["fullUrl"], f"{kind}-{counts[kind]}")
    bundle = re.sub(r'"issued":"[^"]*"', '"issued":"TIME"', bundle)
    bundle = re.sub(r'("system":"urn:lislab:\w+","value":)"[^"]*"', r'\1"ID"', bundle)
    return [one["resource"] for one in read(bundle)["entry"]]


class Makers(HostTest):
    """Each maker's message, sent to a host."""

    @classmethod
    def setUpClass(cls):
        super().setUpClass()
        file = os.path.join(cls.folder.name, "makers.lines")
        text = re.sub(r"(?m)^codes = ", f"codes = {os.path.abspath(FOLDER)}/", kit.read(f"{FOLDER}/makers.lines"))
        with open(file, "w", encoding="ascii") as out:
            out.write(re.sub(r"(?m)^listen = .*$", "listen = 0", text))
        host = Host(os.path.join(cls.folder.name, "makers.db"), "--lines", file, listen=False, scale=0.3)
        ports = {row.split()[2]: row.split()[1] for row in host.rows if row.startswith("listening")}
        for name in NAMES:
            done = lislab("play", f"{FOLDER}/{name}.play", "--to", ports[name], "--store", host.store)
            assert "differences 0" in done.stdout, (name, done.stdout, done.stderr)
        host.stop()
        cls.kept = {one.line: one for one in messages_of(host.store)}
        cls.tables, cls.store, cls.file = Tables(None, file), host.store, file

    def written(self, name, form, **how):
        """The message of a maker in a form."""
        write = export.writer_of(export.Form(form, self.tables, **how))
        return (write(None) + write(self.kept[name])).decode()

    def test_oru(self):
        """As ORU, each byte but the time and the id. There are eight, with a section, a table and a row of the page."""
        places = lines.lines_of(f"{FOLDER}/makers.lines", options.ANY).places
        self.same("their sections", sorted(one.name for one in places), NAMES)
        self.same("how many", len(NAMES), 8)
        page = kit.read("samples/makers/README.md")
        for name in NAMES:
            self.has(f"{name}: where it is from", kit.read(f"{FOLDER}/{name}.play"), "# From memory of the maker's")
            self.has(f"{name}: the page", page, f"`{name}`")
        for name in NAMES:
            out = self.written(name, "oru").replace("\r", "\n")
            out = re.sub(r"(?m)^(MSH(?:\|[^|]*){5}\|)[^|]*(\|(?:[^|]*\|){2})[^|]*", r"\1TIME\2ID", out)
            self.same(name, out.split("\n"), kit.read(f"{FOLDER}/{name}.oru").split("\n"))

    def test_codes(self):
        """A table lacks no code, by the settings of its line."""
        words = ["codes", "--store", self.store, "--lines", self.file]
        for name in ("xn", "architect"):
            done = lislab(*words, "--line", name, f"{FOLDER}/{name}.codes")
            self.has(name, done.stdout, " unknown 0\n")

    def test_csv(self):
        """As a table."""
        fields = "sample,patient,test,value,unit,range,flag,status,date"
        for name in NAMES:
            rows = [row.split(",") for row in self.written(name, "csv", fields=fields.split(",")).splitlines()]
            found = [",".join([*row[4:-3], row[-1]]) for row in rows]
            self.same(name, found, kit.read(f"{FOLDER}/{name}.csv").splitlines())

    def test_fhir(self):
        """As FHIR, each element but what is made of the message's time and keys; and the same results as in the table,
        if no system is set too."""
        names = {"F": "final", "X": "cancelled"}
        for name in NAMES:
            wanted = [one._replace(status=names[one.status]) for one in told.of_csv(kit.read(f"{FOLDER}/{name}.csv"))]
            for wishes in (oru.Wishes(), SYSTEMS):
                bundle = self.written(name, "fhir", wishes=wishes)
                self.same(f"{name}: no fault", fhir_r4.faults(bundle), [])
                self.same(name, told.of_fhir(bundle), wanted)
            self.same(f"{name}: field by field", resources_of(bundle), read(kit.read(f"{FOLDER}/{name}.fhir")))
