"""The table of planted faults, as far as it is checked without planting them."""
from tests.host import SOURCE, planted
from tests.host.hosts import HostTest


class Planted(HostTest):
    """Each test has a fault that it must notice."""

    def test_table(self):
        """The tests of the table are those that there are, and each edit fits its file."""
        tests = sorted(planted.name_of(one) for one in planted.found())
        self.same("each test has a fault", sorted([*planted.FAULTS, *planted.WITH_THEIR_OWN]), tests)
        for edit in [*planted.FAULTS.values(), *planted.HARMLESS]:
            with open(planted.path_of(edit, SOURCE), encoding="utf-8") as file:
                self.same(f"{edit.file}: {edit.old!r}", file.read().count(edit.old), 1)
