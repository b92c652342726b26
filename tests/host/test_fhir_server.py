"""What a server of FHIR has in the end, by the rules for transactions (R4, 3.1.0.11.2, 3.1.0.7.1 and 3.1.0.6.1): each
result once, under its patient and its sample, corrections in the place of what they correct."""
import itertools
import json
import random
import re
import urllib.parse

from lislab.model.results import Coded, Reading, Told
from lislab.outbound import fhir, oru
from tests.host.hosts import HostTest
from tests.host.test_told import message, stored


class Server:
    """Resources by their addresses. A transaction is done whole, or refused."""

    def __init__(self):
        self.resources, self.numbers = {}, itertools.count(1)

    def found(self, kind, search):
        """The addresses of what a search by an identifier finds: by one of several, between commas (R4, 3.1.1.4)."""
        ((name, text),) = urllib.parse.parse_qsl(search)
        assert name == "identifier", search
        named = []
        for each in re.findall(r"(?:[^\\,]|\\.)+", text):
            system, value = (re.sub(r"\\(.)", r"\1", part) for part in re.findall(r"(?:[^\\|]|\\.)+", each))
            named.append({"system": system, "value": value})
        return [address for address, one in self.resources.items() if one["resourceType"] == kind
                and any(each in one["identifier"] for each in named)]

    def take(self, data):
        """Does a transaction: whether it isn't refused."""
        addresses, made = {}, {}
        for entry in json.loads(data)["entry"]:
            resource, request = entry["resource"], entry["request"]
            kind, _, search = request["url"].partition("?")
            found = self.found(kind, request.get("ifNoneExist") or search)
            address = found[0] if found else f"{kind}/{next(self.numbers)}"
            if len(found) > 1 or address in made:
                return False
            addresses[entry["fullUrl"]] = address
            if not found or request["method"] == "PUT":
                made[address] = resource
        for address, resource in made.items():
            text = json.dumps(resource)
            for url, there in addresses.items():
                text = text.replace(f'"{url}"', f'"{there}"')
            self.resources[address] = json.loads(text)
        return True

    def results(self):
        """Each result: whose it is, its sample, its test, its value and its status."""
        for one in self.resources.values():
            if one["resourceType"] == "Observation":
                tube, (asked,) = self.resources[one["specimen"]["reference"]], one["basedOn"]
                subjects = [one["subject"], tube["subject"], self.resources[asked["reference"]]["subject"]]
                assert subjects == subjects[:1] * 3, subjects
                patient = self.resources.get(subjects[0].get("reference"), {"identifier": [subjects[0].get("identifier")]})
                named = patient["identifier"][0]["value"], tube["identifier"][0]["value"], one["code"]["text"]
                yield (*named, str(one["valueQuantity"]["value"]), one["status"])


class OnServer(HostTest):
    """Messages on a server."""

    def test_random(self):
        """Random messages: results, corrections, repeats, and messages that are sent once more because the delivery was
        killed."""
        rng, refused, wishes = random.Random(11), 0, [oru.wishes_of(words) for words in ([], ["practice=urn:p,q"])]
        for at in range(80):
            server, wanted, sent, wish = Server(), {}, [], wishes[at % 2]
            for number in range(rng.randrange(2, 12)):
                body, is_sure = self.message(rng, number, wanted)
                again = rng.choice((None, None, rng.choice(sent))) if sent else None
                body, key, first = (body, f"{number}", None) if again is None else (again[0], f"{number}", again[1])
                if again is None and not is_sure:
                    refused += not server.take(self.bundle(body, key, first, wish))
                    break
                if again is None:
                    sent = [*(sent if b"||||C||||" not in body else ()), (body, key)]  # an old result isn't delivered
                    wanted.update(self.after)
                for _ in range(rng.choice((1, 1, 2))):
                    self.need(server.take(self.bundle(body, key, first, wish)), lambda body=body: f"{at}: refused: {body}")
            found = sorted(server.results())
            right = sorted((*name, *one) for name, values in wanted.items() for one in values)
            self.need(found == right, lambda found=found, right=right: f"{at}: {found}, wanted {right}")
        self.true("what is ambiguous is refused", refused > 2, str(refused))

    @staticmethod
    def bundle(body, key, first, wishes):
        """A message as a Bundle."""
        return fhir.bundle_of(Told(Coded(stored(body, key, again_of=first), Reading(test="4"))), wishes)

    def message(self, rng, number, known):
        """A message, and whether it is sure what its corrections correct; what is known after it is `after`."""
        patient, self.after, is_sure, rows = rng.choice(("4711", "47,12")), {}, True, []
        sample = rng.choice((f"S{patient}", "1", "2"))
        for place, test in enumerate(rng.sample(["GLU", "K", "NA"], rng.choice((1, 1, 2, 3))), 1):
            name, value = (patient, sample, test), f"{number}.{rng.randrange(1, 9)}"
            before = known.get(name, [])
            is_correction = bool(before) and rng.random() < 0.4
            is_sure = is_sure and not (is_correction and len(before) > 1)
            self.after[name] = [(value, "corrected")] if is_correction else [*before, (value, "final")]
            at, lot = f"20261127{number + 10}{place:02}00", rng.choice(("lot 1", "lot 2"))
            rows.append(f"R|{place}|^^^{test}^{lot}|{value}|U||||{'C' if is_correction else 'F'}||||{at}")
        orders = [f"O|1|{sample}||^^^{test}" for _, _, test in self.after]
        if rng.random() < 0.5:
            return message(f"P|1|{patient}", f"O|1|{sample}", *rows), is_sure
        return message(f"P|1|{patient}", *(row for pair in zip(orders, rows) for row in pair)), is_sure
