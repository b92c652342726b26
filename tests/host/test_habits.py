"""Habits of analyzers besides those of `samples/makers`, as the makers' published interface manuals describe them, from
memory and not compared with the manuals: what goes out of each as ORU, FHIR and a table."""
import decimal
from typing import NamedTuple, Tuple

from lislab.outbound import fhir, oru
from lislab.model.codes import LEAVE_OUT, Code, Codes
from lislab.model.failures import Quarantined
from lislab.model.results import Reading, Told
from lislab.outbound import export
from tests.host import told
from tests.host.hosts import HostTest
from tests.host.test_told import message, stored

ONE = decimal.Decimal(1)


class Habit(NamedTuple):
    """What an analyzer sends, by which settings of its line and which table (the analyzer's code, the laboratory's, the
    unit that is sent) it is read, and what goes out: sample, code, value, unit and OBX-2 of each result. Without the
    settings and the table nothing goes out but what is named as `bare`."""

    rows: Tuple[str, ...]
    settings: Reading
    table: Tuple[Tuple[str, str, str], ...]
    wanted: Tuple[Tuple[str, str, str, str, str], ...]
    bare: Tuple[Tuple[str, str, str, str, str], ...] = ()


P = "P|1|4711"
HABITS = {
    "Sysmex, blanks before a value": Habit(
        (P, "O|1||2001^05^   S123^B|^^^^WBC", "R|1|^^^^WBC^1|  6.15|10*3/uL"), Reading("O.4.3", "5"), (),
        (("S123", "WBC", "6.15", "10*3/uL", "NM"),),
    ),
    "Roche, padded to 22 places": Habit(
        (P, "O|1|                000107|5^0^50001|^^^413^", "R|1|^^^413^/1|5.41|mmol/L"), Reading("O.3.1", "4"), (),
        (("000107", "413", "5.41", "mmol/L", "NM"),), (("000107", "^^^413^/1", "5.41", "mmol/L", "NM"),),
    ),
    "Radiometer ABL, a word before the sample": Habit(
        (P, "O|1||Sample #^10552", "R|1|^^^pH^M|7.412||7.350^7.450"), Reading("O.4.2", "4"), (),
        (("10552", "pH", "7.412", "", "NM"),),
    ),
    "Abbott i-STAT, a patient and no sample": Habit(
        (P, "O|1||", "R|1|^^^Na|139|mmol/L"), Reading("none"), (), (("", "Na", "139", "mmol/L", "NM"),),
    ),
    "Abbott Alinity, the result, its light and its interpretation": Habit(
        (P, "O|1|S123", "R|1|^^^1063^HCG^UNDILUTED^F|25.3|mIU/mL", "R|2|^^^1063^HCG^UNDILUTED^P|12345|RLU",
         "R|3|^^^1063^HCG^UNDILUTED^I|Reactive"), Reading(test="4"),
        (("^^^1063^^^F", "HCG", ""), ("^^^^^^P", LEAVE_OUT, ""), ("^^^1063^^^I", "HCG-I", "")),
        (("S123", "HCG", "25.3", "mIU/mL", "NM"), ("S123", "HCG-I", "Reactive", "", "ST")),
        (("S123", "^^^1063^HCG^UNDILUTED^F", "25.3", "mIU/mL", "NM"),
         ("S123", "^^^1063^HCG^UNDILUTED^P", "12345", "RLU", "NM"),
         ("S123", "^^^1063^HCG^UNDILUTED^I", "Reactive", "", "ST")),
    ),
    "Bio-Rad D-10, an area and a result": Habit(
        (P, "O|1|S123", "R|1|^^^A1c^AREA|12345.6", "R|2|^^^A1c^IFCC|42|mmol/mol"), Reading(test="4"),
        (("^^^A1c^AREA", LEAVE_OUT, ""), ("^^^A1c^IFCC", "A1C", "")), (("S123", "A1C", "42", "mmol/mol", "NM"),),
        (("S123", "^^^A1c^AREA", "12345.6", "", "NM"), ("S123", "^^^A1c^IFCC", "42", "mmol/mol", "NM")),
    ),
    "Stago, a test in three units": Habit(
        (P, "O|1|S123", "R|1|^^^   1|    13.1|s", "R|2|^^^   1|      92|%", "R|3|^^^   1|    1.05|INR"), Reading(),
        (("1", "PT-S", "s"), ("1", "PT-P", "%"), ("1", "PT-I", "INR")),
        (("S123", "PT-S", "13.1", "s", "NM"), ("S123", "PT-P", "92", "%", "NM"), ("S123", "PT-I", "1.05", "INR", "NM")),
        (("S123", "1", "13.1", "s", "NM"), ("S123", "1", "92", "%", "NM"), ("S123", "1", "1.05", "INR", "NM")),
    ),
    "Beckman DxI, a dilution": Habit(
        (P, "O|1|S123", "R|1|^^^HCG^1|>1350|mIU/mL", "R|2|^^^HCG^10|15205.5|mIU/mL"), Reading(),
        (("^^^HCG^1", LEAVE_OUT, ""), ("^^^HCG^10", "HCG", "")), (("S123", "HCG", "15205.5", "mIU/mL", "NM"),),
        (("S123", "^^^HCG^1", ">1350", "mIU/mL", "SN"), ("S123", "^^^HCG^10", "15205.5", "mIU/mL", "NM")),
    ),
}


class Habits(HostTest):
    """What goes out of the messages of each habit."""

    @staticmethod
    def forms(coded):
        """The results in each form, and OBX-2 of each."""
        out = oru.oru_of(Told(coded))

        class Tables:
            """Those by which this message is coded."""

            applied = staticmethod(lambda one: coded)

        write = export.writer_of(export.Form("csv", Tables()))
        rows = [told.of_oru(out), told.of_fhir(fhir.bundle_of(Told(coded))),
                told.of_csv((write(None) + write(coded.one)).decode())]
        kinds = [one[2] for segments in told.segments_of(out) for one in segments if one[0] == "OBX"]
        return rows, kinds

    def test_forms(self):
        """By the settings of its line and its table, each form has what a person would write; without them the code is
        the whole field, and what isn't sure doesn't go out."""
        for name, habit in HABITS.items():
            codes = [Code(analyzer, code, "", ONE, "", sent) for analyzer, code, sent in habit.table]
            one = stored(message(*habit.rows))
            for wanted, settings, rows in ((habit.wanted, habit.settings, codes), (habit.bare, Reading(), [])):
                coded = Codes(rows, settings.test).applied(one, settings)
                if not wanted:
                    self.raises(f"{name}: without settings", Quarantined, lambda coded=coded: Told(coded))
                    continue
                found, kinds = self.forms(coded)
                for form, each in zip(("ORU", "FHIR", "a table"), found):
                    self.same(f"{name}: as {form}", [(row.patient, *row[3:7]) for row in each],
                              [("4711", *row[:4]) for row in wanted])
                self.same(f"{name}: OBX-2", kinds, [row[4] for row in wanted])
