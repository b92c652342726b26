"""Each public function has a mutant or a reason why not, and each mutant can be made; the prover tries none here."""
from tests import kit


class Listed(kit.Test):
    def test_mutants(self):
        self.counts("tests/proofs/mutants", "--listed")
