"""The suite of rows: its files, its cases, and how a program is asked them. For `run`, and for tests of this repository."""
import itertools
import os
import shlex
import subprocess

HERE = os.path.dirname(os.path.abspath(__file__))
FOLDERS = ("worked", "rows")
WIDTH = 160  # characters of a line that is shown
# What the gate of this repository runs crates/vectors on: so many of the first cases of each file of these kinds.
FIRST = (15, "both building careful frames headers late link messages receiver records scanner sender texts writing".split())


def files(kind):
    """The files of a kind."""
    paths = [os.path.join(HERE, folder, kind + ".rows") for folder in FOLDERS]
    return [path for path in paths if os.path.exists(path)]


def kinds():
    """All kinds of calls; those of whole programs are run by their name alone."""
    names = {name[:-5] for folder in FOLDERS for name in os.listdir(os.path.join(HERE, folder))
             if name.endswith(".rows")}
    return sorted(names - {"commands"})


def cases(path):
    """The cases of a file: lists of (number of the line, call, answer)."""
    case, call = [], None
    with open(path) as rows:
        for number, line in enumerate(rows, 1):
            line = line.rstrip("\n")
            if line.startswith("#"):
                continue
            if line.startswith("= "):
                case.append((number, call, line[2:]))
            elif line:
                call = line
            elif case:
                yield case
                case = []
    if case:
        yield case


def asked(program, path, most=None):
    """Asks a program the calls of a file: for each case its rows and the answers. An empty line is after each case, in
    calls and in answers."""
    those = list(itertools.islice(cases(path), most))
    calls = "".join("".join(call + "\n" for _, call, _ in case) + "\n" for case in those)
    run = subprocess.run(shlex.split(program), input=calls, stdout=subprocess.PIPE, text=True, errors="replace")
    answers = run.stdout.split("\n\n") if run.stdout else []
    for place, case in enumerate(those):
        yield case, answers[place].strip("\n").split("\n") if place < len(answers) else []


def start(program, words, text):
    """Runs a command: its status, what it wrote, and its line on standard error."""
    run = subprocess.run(shlex.split(program) + words, input=text, stdout=subprocess.PIPE, stderr=subprocess.PIPE)
    return run.returncode, run.stdout, run.stderr.decode(errors="replace").rstrip("\n")


def commanded(program, path, most=None, left_out=None):
    """Runs each command of a file: for each case its rows and the answers. One that the program doesn't know, which ends
    with status 2, is counted in left_out."""
    known, left_out = {}, {} if left_out is None else left_out
    for case in itertools.islice(cases(path), most):
        answers, rows = [], []
        for row in case:
            _, *words, text = row[1].split(" ")
            name = " ".join(words)
            if name not in known:
                known[name] = start(program, words, b"")[0] != 2
            if not known[name]:
                left_out[name] = left_out.get(name, 0) + 1
                continue
            status, output, error = start(program, words, bytes.fromhex("" if text == "-" else text))
            rows.append(row)
            answers.append(f"{status} {output.hex() or '-'} {error}".rstrip())
        if rows:
            yield rows, answers


def first_wrong(path, rows, answers):
    """The place of the first row that isn't answered as it is to be, and what was wanted and got; None if there is none."""
    answers = list(answers) + [None] * (len(rows) - len(answers))
    wrong = [(row, got) for row, got in zip(rows, answers) if row[2] != got]
    if len(answers) > len(rows):
        wrong.append((rows[-1], "answers after the last call's"))
    if not wrong:
        return None
    (number, call, wanted), got = wrong[0]
    wanted, got = difference(wanted, got)
    return f"{os.path.relpath(path, HERE)}:{number}", f"{call[:WIDTH]}\n  wanted {wanted}\n  got    {got}"


def difference(wanted, got):
    """The parts of two lines round the first place where they differ."""
    if got is None:
        return wanted[:WIDTH], "no answer"
    place = len(os.path.commonprefix([wanted, got]))
    begin = max(0, place - WIDTH // 2)
    mark = f"[from {begin}] " if begin else ""
    return mark + wanted[begin:begin + WIDTH], mark + got[begin:begin + WIDTH]
