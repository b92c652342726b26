"""The command `lislab play`."""
import argparse
import os
import shlex
import subprocess
import sys
import time
from typing import Callable, List, NamedTuple, Optional, Tuple, TypeVar

from ..diagnosis.log import LogError, times_beside
from ..model import options
from ..model.options import OptionError
from ..model.said import announce
from ..play import kept
from ..play.player import Outcome, Pace, Played, Player, ranges
from ..play.report import junit_of, page_of
from ..play.script import BYTES, Script, ScriptError, Step, read_script, steps_of
from ..play.wanted import is_field
from ..play.wire import End, LineFailed, On, Place, To
from .common import GOOD, LOOKS_WRONG, STOPPED, say, write_output
from .words import FACTOR, add_allow, add_scale

#: The ends of the names of a folder's scripts.
_ENDINGS = (".play", ".capture")
_T = TypeVar("_T")


class Play(NamedTuple):
    """A script that is to be played: its name, itself, and its steps."""

    name: str
    script: Script
    steps: List[Step]


def add_options(one: argparse.ArgumentParser) -> None:
    """Adds the options of `lislab play`."""
    one.add_argument("script", help="a script, a capture, or a folder of them; - is standard input")
    _add_line(one)
    one.add_argument("--fast", action="store_true", help="ignore the times of a capture: send as soon as a reply comes")
    one.add_argument(
        "--same-but", default="", metavar="FIELDS", help="let these fields differ in all frames, for example DATE,H.5"
    )
    one.add_argument("--store", metavar="STORE", help="check stored records (step K) in this store of lislab serve")
    one.add_argument(
        "--kept", metavar="COMMAND", help="check stored records (step K) by this command, which prints them"
    )
    one.add_argument("--restart", metavar="COMMAND", help="restart the other end (step R) by this command")
    one.add_argument("--report", metavar="FILE", help="write an HTML report with a place for signatures")
    one.add_argument("--junit", metavar="FILE", help="write the results as JUnit XML")
    add_scale(one)


def _add_line(one: argparse.ArgumentParser) -> None:
    one.add_argument("--to", metavar="HOST:PORT", help="connect to a TCP port")
    one.add_argument(
        "--listen", metavar="[HOST:]PORT", help="wait for a connection; without HOST, only from this machine"
    )
    one.add_argument("--serial", metavar="DEVICE:SPEED[,mode=8N1][,flow=..]", help="open a serial port")
    add_allow(one, "with --listen: let this network connect too")
    one.add_argument(
        "--as", dest="end", choices=("analyzer", "computer"), help="play this end (the one that the script names)"
    )
    one.add_argument(
        "--within",
        type=FACTOR,
        default=60.0,
        metavar="SECONDS",
        help="wait SECONDS for a connection or a new session (%(default)s)",
    )


def _place(ask: argparse.Namespace) -> Place:
    if sum(map(bool, (ask.to, ask.listen, ask.serial))) != 1:
        raise OptionError("name the line by one of --to, --listen and --serial")
    if ask.serial:
        return options.serial_of(ask.serial)
    if ask.to:
        return To(*options.split_address(ask.to))
    listen = options.listen_of(ask.listen)
    networks = options.networks_of(ask.allow)
    options.check_allowed([listen], networks)
    return On(listen.host, listen.port, networks)


def _read(path: str) -> bytes:
    """The bytes of a script; of one that is too long, only as many as show that."""
    if path == "-":
        return sys.stdin.buffer.read(BYTES + 1)
    with open(path, "rb") as file:
        return file.read(BYTES + 1)


def _script(path: str) -> Script:
    """A script, with the times in the file next to it."""
    script = read_script(_read(path))
    if path == "-" or not os.path.exists(path + ".times"):
        return script
    times = times_beside([step.line for step in script.steps], path + ".times")
    return script._replace(steps=[step._replace(time=at) for step, at in zip(script.steps, times)])


def _paths(path: str) -> List[Tuple[str, str]]:
    """The names and paths of the scripts in a folder and the folders in it; or the script itself."""
    if not os.path.isdir(path):
        return [(os.path.basename(path) if path != "-" else "standard input", path)]
    found = []
    for folder, _, names in os.walk(path):
        for name in names:
            if name.endswith(_ENDINGS):
                whole = os.path.join(folder, name)
                found.append((os.path.relpath(whole, path), whole))
    if not found:
        raise OptionError(f"{path}: no file in it ends in {' or '.join(_ENDINGS)}")
    return sorted(found)


def _plays(ask: argparse.Namespace) -> Tuple[List[Play], str]:
    """What is to be played, and the mark of the end that plays it: the one that is asked for, or that of all scripts,
    or else the analyzer. Of a folder only the scripts for that end are played."""
    but = [name for name in ask.same_but.split(",") if name]
    for name in but:
        if not is_field(name):
            raise OptionError(f"--same-but {name}: expected a number, LETTER.NUMBER, a name of LIS02-A2, or DATE")
    paths, is_folder = _paths(ask.script), os.path.isdir(ask.script)
    scripts = [_named(name, path, lambda: _script(path)) for name, path in paths]
    is_computer = ask.end == "computer" if ask.end else all(one.is_computer for one in scripts)
    own = "<" if is_computer else ">"
    found: List[Play] = []
    for (name, path), script in zip(paths, scripts):
        if not is_folder or script.is_computer == is_computer:
            steps = _named(name, path, lambda: steps_of(script, own, but))
            found.append(Play(name, script, steps))
    if not found:
        raise OptionError(f"{ask.script}: no script in it is for the {ask.end}")
    return found, own


def _named(name: str, path: str, call: Callable[[], _T]) -> _T:
    """The result of a call; an error names the script."""
    try:
        return call()
    except ScriptError as error:
        raise OptionError(f"{name if path == '-' else path}: {error}") from None


def _restart_of(words: Optional[str]) -> Callable[[], bool]:
    def restart() -> bool:
        if not words:
            return False
        done = subprocess.run(shlex.split(words), check=False)
        if done.returncode:
            raise LineFailed(f"--restart ended with status {done.returncode}")
        return True

    return restart


def _source_of(ask: argparse.Namespace) -> Optional[kept.Source]:
    if ask.store and ask.kept:
        raise OptionError("--store and --kept can't go together")
    if ask.store:
        return kept.from_store(ask.store)
    return kept.from_command(ask.kept) if ask.kept else None


def run(ask: argparse.Namespace) -> int:
    """Plays a script, or all of a folder."""
    place, source = _place(ask), _source_of(ask)
    plays, own = _plays(ask)
    pace = Pace(ask.fast, ask.scale, ask.within)
    if source is None and any(step.mark == "K" for play in plays for step in play.steps):
        say("what is stored isn't checked: name --store or --kept")
    is_one = not os.path.isdir(ask.script)
    try:
        end = End(place, ask.within, announce)
    except OSError as error:
        raise LogError(f"--listen {ask.listen}: {error.strerror or error}") from None
    try:
        played = [_play(play, own, end, pace, source, _restart_of(ask.restart), is_one) for play in plays]
    finally:
        end.end()
    if ask.report:
        write_output(ask.report, page_of(played).encode("utf-8", "replace"))
    if ask.junit:
        write_output(ask.junit, junit_of(played).encode("utf-8", "replace"))
    outcomes = [one.outcome for one in played]
    wrong = [one for one in outcomes if one.differences or one.failed]
    if not is_one:
        steps, count = sum(one.steps for one in outcomes), sum(len(one.differences) for one in outcomes)
        print(f"plays {len(played)} failed {len(wrong)} steps {steps} differences {count}", flush=True)
    if any(one.failed for one in outcomes):
        return STOPPED
    return LOOKS_WRONG if wrong else GOOD


def _play(
    play: Play,
    own: str,
    end: End,
    pace: Pace,
    source: Optional[kept.Source],
    restart: Callable[[], bool],
    is_one: bool,
) -> Played:
    asks = any(step.mark == "K" for step in play.steps)
    player = Player(play.steps, own, end, pace, kept.Keeping(source if asks else None), restart)
    begun = time.time()
    try:
        outcome = player.play()
    except LineFailed as error:
        outcome = player.failed(f"the line failed: {error}")
    except kept.NotKept as error:
        outcome = player.failed(f"what is kept can't be looked at: {error}")
    end.close()
    _print(play.name, outcome, is_one)
    return Played(play.name, play.script.about, own, end.own, end.other, begun, time.time() - begun, outcome)


def _print(name: str, outcome: Outcome, is_one: bool) -> None:
    """The differences of a play, and its last line."""
    for line, (wanted, got) in outcome.differences:
        print(f"difference {line or 'end'} {wanted} {got}")
    where = "" if is_one else f"{name}: "
    if outcome.failed:
        say(f"{where}{outcome.failed}")
    elif outcome.skipped:
        say(f"{where}not played: line {ranges(outcome.skipped)}")
    head = "" if is_one else f"{name} "
    stopped = ", and the play stopped" if outcome.failed else ""
    print(f"{head}steps {outcome.steps} differences {len(outcome.differences)}{stopped}", flush=True)
