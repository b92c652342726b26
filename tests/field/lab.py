"""What the tests of the field kit share: runs of `lislab` in this process, and runs of the program."""
import contextlib
import io
import os
import subprocess

from tests import kit

kit.library()
from lislab.cli import main as cli  # noqa: E402: it finds the library by the environment


class Ran:
    """What a run of a command gave."""

    def __init__(self, status, output, error):
        self.status, self.output, self.error = status, output, error
        self.text = output.decode("utf-8", "replace")
        self.lines = self.text.splitlines()


def lislab(*words, data=b""):
    """Runs lislab in this process."""
    out, err = io.TextIOWrapper(io.BytesIO(), encoding="utf-8", newline=""), io.StringIO()
    source = io.TextIOWrapper(io.BytesIO(data))
    before = cli.sys.stdin
    try:
        cli.sys.stdin = source
        with contextlib.redirect_stdout(out), contextlib.redirect_stderr(err):
            try:
                status = cli.main(list(words))
            except SystemExit as error:
                status = error.code
            out.flush()
    finally:
        cli.sys.stdin = before
    return Ran(status, out.buffer.getvalue(), err.getvalue())


class FieldTest(kit.Test):
    """A test with the program, the library and a folder of its own."""

    def setUp(self):
        self.program, self.library = kit.built("lislink"), kit.library()
        self.folder = kit.folder_of(self)

    def path(self, name, data=None):
        """A file of this test, with these bytes if there are some."""
        path = os.path.join(self.folder, name)
        if data is not None:
            with open(path, "wb") as file:
                file.write(data)
        return path

    def lislink(self, *words, data=b""):
        """Runs the program."""
        done = subprocess.run([self.program, *words], input=data, capture_output=True, check=False)
        return Ran(done.returncode, done.stdout, done.stderr.decode("utf-8", "replace"))
