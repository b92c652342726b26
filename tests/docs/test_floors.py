"""The floors of lislab: a module imports only what is below its floor, or on it; no module imports itself by others, and
no function imports anything but a library that may be missing. `lislink`, the binding, imports nothing of lislab."""
import ast
import functools
import glob
import os

from tests import ROOT, kit

#: From below; none of those on one row imports another one of it.
FLOORS = (("model",), ("diagnosis",), ("field",), ("host",), ("outbound",), ("watch", "play", "analyzer"), ("cli",))
LEVELS = {name: level for level, names in enumerate(FLOORS) for name in names}
#: What a function may import: what a machine may not have.
OPTIONAL = ("psycopg", "psycopg2", "serial", "hl7")
PACKAGES = {"lislab": "lab/src", "lislink": "python/src"}


def sources():
    """The text of each module by its dotted name; that of a package ends with `__init__`."""
    found = {}
    for package, folder in PACKAGES.items():
        for path in sorted(glob.glob(f"{ROOT}/{folder}/{package}/**/*.py", recursive=True)):
            name = os.path.relpath(path, f"{ROOT}/{folder}")[:-3].replace(os.sep, ".")
            found[name] = kit.read(path)
    return found


@functools.lru_cache(maxsize=None)
def imports(name, text):
    """What a module imports: the module, a name of it or none, and whether a function does it."""
    tree, found = ast.parse(text), []
    inner = {id(it) for each in ast.walk(tree) if isinstance(each, (ast.FunctionDef, ast.AsyncFunctionDef))
             for it in ast.walk(each)}
    for node in ast.walk(tree):
        if isinstance(node, ast.Import):
            found += [(one.name, "", id(node) in inner) for one in node.names]
        elif isinstance(node, ast.ImportFrom):
            above = name.split(".")[:-node.level] if node.level else []
            module = ".".join([*above, *filter(None, [node.module])])
            found += [(module, one.name, id(node) in inner) for one in node.names]
    return found


def floor_of(name):
    """The floor of a module of lislab, and its level."""
    floor = name.split(".")[1] if name.startswith("lislab.") else ""
    return floor, LEVELS.get(floor)


def faults(found):
    """What is wrong with the imports of these modules."""
    ties = {}
    for name, text in found.items():
        floor, level = floor_of(name)
        if level is None and name not in ("lislab.__init__", "lislab.__main__") and name.startswith("lislab"):
            yield f"{name} is on no floor"
        for module, word, is_inner in imports(name, text):
            target = f"{module}.{word}" if f"{module}.{word}" in found else module
            ties.setdefault(name, set()).add(target)
            its, its_level = floor_of(target)
            if is_inner and target.split(".")[0] not in OPTIONAL:
                yield f"{name} imports {target} in a function"
            if name.startswith("lislink") and target.startswith("lislab"):
                yield f"{name} imports {target}"
            if level is not None and its_level is not None and floor != its and its_level >= level:
                yield f"{name} imports {target}, which isn't below it"
    yield from (f"{name} imports itself, or one that does" for name in rounds(ties))


def rounds(ties):
    """The modules that import themselves by others: those that are left once each that imports none of them is gone."""
    left = dict(ties)
    while True:
        bare = [name for name in left if not left[name] & left.keys()]
        if not bare:
            return sorted(left)
        for name in bare:
            del left[name]


class Floors(kit.Test):
    """Who may import whom."""

    def test_floors(self):
        """Nothing leads upward; what would is noticed, and what doesn't passes."""
        found = sources()
        self.same("imports", list(faults(found)), [])
        self.same("floors", {floor_of(name)[0] for name in found if name.count(".") > 1 and name.startswith("lislab")}, set(LEVELS))
        store = "lislab.model.store"
        for what, name, more in (
            ("upward", store, "from ..host import line"),
            ("on the same row", "lislab.watch.ring", "from ..play.wire import End"),
            ("in a function", store, "def f():\n    from .files import writing"),
            ("itself", store, "from . import sql"),
            ("the binding", "lislink.link", "import lislab.model.store"),
            ("no floor", "lislab.attic.old", ""),
        ):
            with self.subTest(what):
                changed = {**found, name: found.get(name, "") + f"\n{more}\n"}
                self.check(list(faults(changed)) != [], f"{what}: is noticed")
        for name, more in ((store, "from .files import writing"), ("lislab.host.line", "from ..model import store"),
                           (store, "def f():\n    import psycopg")):
            self.same(more, list(faults({**found, name: found[name] + f"\n{more}\n"})), [])
