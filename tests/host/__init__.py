"""The host `lislab serve`, by fire: it is killed, stopped, starved of its disk, and given analyzers with noise, late
replies and resets; what was acknowledged must be kept, and each repeat marked. All traffic is on loopback.

`tests/host/more` makes the long runs, runs single tests, and plants faults.
"""
import os
import sys

from tests import ROOT, kit

kit.library()
#: Where the packages are that are tested.
SOURCE = os.environ.get("LISLAB_SOURCE") or os.pathsep.join(f"{ROOT}/{folder}/src" for folder in ("python", "lab"))
sys.path[1:1] = SOURCE.split(os.pathsep)
