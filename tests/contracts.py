"""The functions of the crates, their contracts, and the definition files that user-level contracts reach."""
import glob
import os
import re

TOP = os.path.dirname(os.path.dirname(os.path.abspath(__file__)))
# A function's head ends before its brace, which stands on a line of its own where there is a contract.
PLAIN, WITH_CONTRACT = r"(?:(?!\n\s+(?:requires|ensures)\b).)*?(?= \{\n)", r".*?(?=\n\{)"
FUNCTION = re.compile(
    rf'^(?P<exported>#\[unsafe\(no_mangle\)\]\n)?(?P<public>pub )?(?P<c>extern "C" )?fn (?P<name>\w+)(?P<head>{PLAIN}|{WITH_CONTRACT})'
    r"\s*\{\n(?P<body>.*?)^\}$",
    re.M | re.S,
)

# The functions of a type, which stand in its `impl`; those of a trait have the trait's contracts.
METHODS = re.compile(r"^impl(?:<[^\n]*?>)? (?P<type>\w+)(?:<[^\n]*>)? \{\n(?P<body>.*?)^\}$", re.M | re.S)


class Function:
    """A function of the source: its callable path, whether other crates can call it, its contract, and its body."""

    def __init__(self, place, found, public, imports):
        self.name, self.head, self.body = found["name"], found["head"], found["body"].strip()
        self.path, self.public, self.imports = f"{place}::{self.name}", public, imports
        self.exported = bool(found["exported"] and found["public"] and found["c"])
        self.asks = bool(re.search(r"^\s+requires\b", self.head, re.M))
        self.promises = bool(re.search(r"^\s+ensures\b", self.head, re.M))

    def cited(self):
        """The definitions that its contract cites, each with the crate and the file that it is brought in from."""
        words = set(re.findall(r"[^\s(){},;:=.]+", self.head))
        return {(crate, module, name) for crate, module, names in self.imports for name in names if words & parts(name)}


def parts(name):
    """The words by which a name shows where it is used: an operator's are what stands between its places."""
    return {part for part in name.split("◌") if part}


def crates():
    """The crates of crates.txt: whether each is a static library, and the crates that it lists."""
    with open(os.path.join(TOP, "crates.txt")) as f:
        rows = re.findall(r"^(\w+)( staticlib)?:(.*)$", re.sub(r"#.*", "", f.read()), re.M)
    return {name: (bool(kind), uses.split()) for name, kind, uses in rows}


def is_open(crate, module):
    """Whether a module of a crate is public."""
    return module == "lib" or f"pub mod {module};" in open(os.path.join(TOP, "crates", crate, "src", "lib.rt")).read()


def functions(static=False):
    """Every function of every library that other crates stand on, or of every static library."""
    kinds = crates()
    for path in sorted(glob.glob(os.path.join(TOP, "crates", "*", "src", "*.rt"))):
        crate, module = os.path.relpath(path, TOP).split(os.sep)[1], os.path.splitext(os.path.basename(path))[0]
        if not os.path.exists(os.path.join(os.path.dirname(path), "lib.rt")):  # a program offers no functions
            continue
        if kinds.get(crate, (False,))[0] != static:
            continue
        text = open(path).read()
        imports = re.findall(r"^ghost use Rattle\.(\w+)\.specs\.(\w+)\.\{(.*)\};$", text, re.M)
        named = [(used, file, names.split(", ")) for used, file, names in imports]
        for found in FUNCTION.finditer(text):
            place = crate if module == "lib" else f"{crate}::{module}"
            yield Function(place, found, bool(found["public"]) and is_open(crate, module), named)
        for block in METHODS.finditer(text):
            for found in FUNCTION.finditer(re.sub(r"^    ", "", block["body"], flags=re.M)):
                yield Function(f"{crate}::{block['type']}", found, bool(found["public"]) and is_open(crate, module), named)


def user_level():
    """The functions that users call, by the sections of docs/PROMISES.md."""
    page = open(os.path.join(TOP, "docs", "PROMISES.md")).read()
    return set(re.findall(r"^### `([\w:]+)`", page, re.M))


def definition_files():
    """Every definition file, as CRATE/specs/NAME.antt."""
    paths = glob.glob(os.path.join(TOP, "crates", "*", "specs", "*.antt"))
    return sorted(os.path.relpath(path, os.path.join(TOP, "crates")) for path in paths)


def imported(path):
    """The definition files that a definition file brings in."""
    text = open(os.path.join(TOP, "crates", path)).read()
    for crate, module in re.findall(r"^(?:pub )?use Rattle\.(\w+)\.specs\.(\w+)(?=[.\s]|$)", text, re.M):
        if module != "declared" and crate in crates():
            yield f"{crate}/specs/{module}.antt"


def reached_files():
    """The definition files that the contracts of user-level functions cite, and those that these are built from."""
    wanted, own, todo = user_level(), crates(), []
    for function in functions():
        if function.path in wanted:
            todo += [f"{crate}/specs/{module}.antt" for crate, module, _ in function.cited() if crate in own]
    reached = set()
    while todo:
        path = todo.pop()
        if path not in reached:
            reached.add(path)
            todo += imported(path)
    return reached
