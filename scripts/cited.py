"""Follows what public contracts and theorems cite; scripts/cited.sh says what for.

It starts from
  contracts   the `requires` and `ensures` of every `pub fn` in a crate that docs/CALLS.md calls public, of `estimator`
              those of the C functions, which `estimator_c` exports with the very same clauses; and what an `impl` of a
              trait there promises in a `ghost` item, as `from_gives` of a `From`;
  theorems    the types of those in the table `| theorem | in |` of docs/READING.md, with the parameters of the modules
              around them.
A name is found through the `use` lines of its file, or in the file itself, and all that its definition cites is
followed in turn. It ends at names of the toolchain and at `specs.declared`, which the toolchain makes of the structs and
enums in src. A module that the toolchain makes of a function (`proofs.render`, `specs.contracts.render`) stands for that
function's contract.
A definition is what stands from its signature to the next one; fields belong to their record. Names that are bound
inside are not told apart from others: where one is also imported, it counts as cited.
"""

import re
import sys
from collections import OrderedDict, deque
from pathlib import Path

verbose = "--verbose" in sys.argv[1:]
folders = [a for a in sys.argv[1:] if not a.startswith("--")]
root = Path(folders[0]) if folders else Path(__file__).resolve().parent.parent
READING = "docs/READING.md"
# Files of the tables that nothing needs to cite, each with its reason.
UNCITED = {}

failures = []


def fail(text):
    failures.append(text)


def read(path):
    return (root / path).read_text(encoding="utf-8")


# ---- words of a text, without brackets, projections and numbers
def words(text):
    for word in re.split(r"[\s(){};,«»⌜⌝]+", text):
        word = word.rstrip(".")
        if word and not word.startswith("."):
            yield word


class File:
    """A file of definitions: what it imports, and its definitions by name."""

    def __init__(self, path):
        self.path = path
        mark = "//" if path.endswith(".rt") else "--"
        self.lines = [re.sub(r"(^|\s)" + mark + r".*", "", line).rstrip() for line in read(path).splitlines()]
        self.imports = {}  # word -> (module, name)
        self.modules = {}  # alias -> module
        self.bodies = OrderedDict()  # name -> text of the definition
        self.types = {}  # name -> text of its signature alone
        self.owners = {}  # word -> name: the parts of a mixfix name, and a record's fields
        self.find_imports()
        if path.endswith(".antt"):
            self.find_definitions()

    def find_imports(self):
        text = "\n".join(self.lines)
        for module, names in re.findall(r"^(?:ghost )?(?:pub )?use (\S+?)\.\{([^}]*)\};?$", text, re.M):
            for name in filter(None, (n.strip() for n in names.split(","))):
                name, _, other = name.partition(" as ")
                for word in parts(other or name):
                    self.imports[word] = (module, name)
        for module, alias in re.findall(r"^(?:ghost )?use (\S+) as (\S+?);?$", text, re.M):
            self.modules[alias] = module

    def find_definitions(self):
        around = []  # (indent, parameters) of the modules around a line
        name = None
        text = "\n".join(self.lines)
        # a module's head on one line
        heads = re.compile(r"^ *module [^\n]*(\n[^\n]+?)*?where$", re.M)
        text = heads.sub(lambda head: re.sub(r"\n *", " ", head[0]), text)
        for line in text.split("\n"):
            indent = len(line) - len(line.lstrip())
            text = line.strip()
            if not text or re.match(r"(pub )?(use|mod|infix[lr]?) ", text):
                if text:
                    name = None
                continue
            module = re.match(r"module \S+ ?(.*?) ?where$", text)
            record = re.match(r"(?:pub )?(?:record|data) (\S+)", text)
            signature = re.match(r"(?:(?:abbrev|unfoldable) )?(?:pub )?(\S+) :(?: |$)", text)
            if text.startswith("module ") and not module:
                fail(f"{self.path}: the head of a module is not understood: {text}")
            while around and indent <= around[-1][0]:
                around.pop()
            top = not around or indent == around[-1][0] + 2
            if around or indent == 0:
                if top and module:
                    around.append((indent, module.group(1)))
                    name = None
                    continue
                if top and record:
                    name = self.begin(record.group(1), around, text)
                    in_record = indent
                    continue
                if top and signature:
                    name = self.begin(signature.group(1), around, text)
                    in_record = None
                    in_type = True
                    continue
            if name is None:
                continue
            self.bodies[name] += "\n" + text
            if in_record is not None:
                field = re.match(r"(?:pub )?(\S+) : ", text)
                if field and indent == in_record + 2:
                    self.owners.setdefault(field.group(1), name)
                self.types[name] += "\n" + text
            elif in_type and not top:
                self.types[name] += "\n" + text
            else:
                in_type = False

    def begin(self, name, around, text):
        parameters = " ".join(p for _, p in around)
        self.bodies[name] = self.types[name] = parameters + "\n" + text
        for word in parts(name):
            self.owners[word] = name
        return name


def parts(name):
    """The words by which a name is used: those around the places of a mixfix name, or itself."""
    return [p for p in name.split("◌") if p] if "◌" in name else [name]


files = {}


def file_at(path):
    if path not in files:
        files[path] = File(path)
    return files[path]


# ---- contracts: (function, text of its clauses), of a crate's source
def clauses_after(text, at):
    """The `requires` and `ensures` between a function's parameters and its body."""
    found = ""
    while True:
        clause = re.compile(r"\s*(requires|ensures|decreases)\*?(\s+\w+)?\s*\{").match(text, at)
        if not clause:
            return found
        depth, end = 1, clause.end()
        while depth:
            depth += {"{": 1, "}": -1}.get(text[end], 0)
            end += 1
        found += text[clause.end() : end - 1] + "\n"
        at = end


def functions(crate):
    for path in sorted((root / "crates" / crate / "src").rglob("*.rt")):
        path = str(path.relative_to(root))
        text = "\n".join(file_at(path).lines)
        owner = ""
        for m in re.finditer(r"^impl (\w+)|^\s*((?:#\[[\w()]+\]\s*)*)(pub )?(extern \"C\" )?fn (\w+)[^(]*\(", text, re.M):
            if m.group(1):
                owner, owner_end = m.group(1) + "::", text.find("\n}", m.end())
                continue
            if owner and m.start() > owner_end:
                owner = ""
            depth, at = 1, m.end()
            while depth:
                depth += {"(": 1, ")": -1}.get(text[at], 0)
                at += 1
            result = re.compile(r"\s*->\s*[^{]*?(?=\s+(?:requires|ensures|decreases)\b\*?|\s*\{)").match(text, at)
            at = result.end() if result else at
            yield {
                "name": f"{crate}::{owner}{m.group(5)}",
                "fn": m.group(5),
                "public": bool(m.group(3)),
                "c": bool(m.group(4)) and "no_mangle" in m.group(2),
                "file": path,
                "text": clauses_after(text, at),
            }
        for m in re.finditer(r"^    ghost (\w+) = \{(.*)\};$", text, re.M):
            promise = {"name": f"{crate}::{m.group(1)}", "fn": m.group(1), "public": True, "c": False, "file": path}
            yield {**promise, "text": m.group(2)}


# ---- where a module lies
def place(module):
    """A file of the repository, a function's contract, the toolchain or a declared type."""
    m = re.match(r"Rattle\.([a-z0-9_]+)\.(specs|proofs)\.(.*)$", module)
    if not m or not (root / "crates" / m.group(1)).is_dir():
        return ("toolchain", module)
    crate, kind, rest = m.groups()
    if kind == "specs" and rest.startswith("declared."):
        return ("declared", module)
    if kind == "specs" and rest.startswith("contracts."):
        return ("contract", crate, rest.split(".")[-1])
    path = f"crates/{crate}/{kind}/{rest.replace('.', '/')}.antt"
    functions_of = [n for n in rest.split(".") if n[0].islower()]
    if kind == "proofs" and functions_of:
        return ("contract", crate, functions_of[-1])
    return ("file" if (root / path).is_file() else "missing", path)


ends = {"toolchain": {}, "declared": {}}


def cited(file, text, own):
    """What a text in a file cites: pairs of a file and a name, or a function's contract."""
    for word in words(text):
        alias, _, name = word.partition(".")
        if name and alias in file.modules:
            yield from found(file.modules[alias], name)
            continue
        word = alias  # of a projection, `g.intervals`, the value
        if word in file.owners and file.owners[word] != own:
            yield ("definition", file.path, file.owners[word])
        elif word in file.imports:
            yield from found(*file.imports[word])


def found(module, name):
    where = place(module)
    if where[0] in ends:
        ends[where[0]].setdefault(module, set()).add(name)
    elif where[0] == "missing":
        fail(f"{name} is imported from {module}, and there is no {where[1]}")
    elif where[0] == "contract":
        yield ("contract", where[1], where[2])
    else:
        yield ("definition", where[1], name)


# ---- what docs/READING.md and docs/CALLS.md say
reading = read(READING).splitlines()
tables = OrderedDict()  # file of definitions -> its row
theorems = []  # (file, names)
for line in reading:
    row = re.match(r"\| \d+ \| `(crates/\w+/specs/\w+\.antt)` \|", line)
    if row:
        if row.group(1) in tables:
            fail(f"{READING}: two rows for {row.group(1)}")
        tables[row.group(1)] = line
    row = re.match(r"\| (.*) \| `(crates/[\w*]+/proofs/\w+\.antt)` \|", line)
    if row:
        paths = sorted(str(p.relative_to(root)) for p in root.glob(row.group(2)))
        if not paths:
            fail(f"{READING}: there is no {row.group(2)}")
        for path in paths:
            theorems.append((path, re.findall(r"`([^`]+)`", row.group(1))))
for path in tables:
    if not (root / path).is_file():
        fail(f"{READING}: there is no {path}")
named = set(tables) | {path for path, _ in theorems}

public = re.search(r"^\| ([a-z_, ]+) \| public \|$", read("docs/CALLS.md"), re.M).group(1).split(", ")

# ---- the walk
parent = {}
queue = deque()
contracts = {}


def reach(node, by):
    if node not in parent:
        parent[node] = by
        queue.append(node)


for crate in sorted(p.name for p in (root / "crates").iterdir()):
    for f in functions(crate):
        contracts.setdefault((crate, f["fn"]), []).append(f)
starts = [
    f
    for crate in public
    for (c, _), fs in contracts.items()
    if c == crate
    for f in fs
    if f["public"] and (crate != "estimator" or f["fn"].startswith("kan_"))
]
exported = {f["fn"]: f["text"] for (c, _), fs in contracts.items() if c == "estimator_c" for f in fs if f["c"]}
promised = {f["fn"]: f["text"] for f in starts if f["name"].startswith("estimator::")}
for name in sorted(set(exported) | set(promised)):
    if exported.get(name) != promised.get(name):
        fail(f"{name} does not have the same clauses in estimator and, for C, in estimator_c")
if not starts or not theorems:
    fail("no contracts or no theorems were found")
for f in starts:
    if not f["text"]:
        fail(f"{f['name']} in {f['file']} has no contract")
    reach(("contract", f["file"].split("/")[1], f["fn"]), None)
shown = 0
for path, names in theorems:
    file = file_at(path)
    if not names:
        # every public theorem or definition of the file
        names = [n for n, t in file.types.items() if re.search(r"^(\w+ )?pub ", t.split("\n")[1])]
    for name in names:
        if name not in file.types:
            fail(f"{READING}: {path} has no {name}")
            continue
        defined = re.match(r"(abbrev|unfoldable|(pub )?(record|data)) ", file.types[name].split("\n")[1])
        shown += not defined
        reach(("definition" if defined else "theorem", path, name), None)

while queue:
    node = queue.popleft()
    kind, at, name = node
    if kind == "contract":
        for f in contracts.get((at, name), []):
            for other in cited(file_at(f["file"]), f["text"], None):
                reach(other, node)
        if (at, name) not in contracts:
            fail(f"there is no function {name} in crates/{at}/src, whose contract is cited")
        continue
    file = file_at(at)
    name = file.owners.get(name, name)
    if name not in file.bodies:
        fail(f"{at} does not define {name}")
        continue
    text = file.types[name] if kind == "theorem" else file.bodies[name]
    for other in cited(file, text, name):
        reach(other, node)


# ---- the verdict
def called(node):
    kind, at, name = node
    return f"{at}::{name}" if kind == "contract" else f"{name} ({at})"


def chain(node):
    steps = []
    while node:
        steps.append(called(node))
        node = parent[node]
    return " -> ".join(reversed(steps))


reached = OrderedDict()
for node in parent:
    if node[0] != "contract":
        reached.setdefault(node[1], []).append(node)
for path, nodes in reached.items():
    if path not in named:
        first, others = nodes[0], sorted({n[2] for n in nodes[1:]} - {nodes[0][2]})
        fail(
            f"{first[2]} is cited, and its file {path} is not in the tables of {READING}\n    {chain(first)}"
            + (f"\n    with it {', '.join(others)}" if others else "")
        )
for path in tables:
    if path in UNCITED:
        if path in reached:
            fail(f"{path} is cited, and need not be among those that nothing cites: {UNCITED[path]}")
    elif path not in reached:
        fail(f"{path} is in the tables of {READING}, and no contract or theorem cites a definition of it")

if verbose:
    for path, nodes in sorted(reached.items()):
        print(f"{path}: {', '.join(sorted({n[2] for n in nodes}))}")
    for kind, title in (("declared", "made of structs and enums"), ("toolchain", "of the toolchain")):
        print(f"---- {title}")
        for module, names in sorted(ends[kind].items()):
            print(f"{module}: {', '.join(sorted(names))}")
if failures:
    for text in dict.fromkeys(failures):
        print(f"cited: {text}", file=sys.stderr)
    sys.exit(1)
definitions = sum(len({n[2] for n in nodes}) for path, nodes in reached.items() if path in tables)
print(
    f"cited: {len(starts)} contracts and {shown} theorems cite {definitions} definitions in the {len(tables)} files of"
    f" {READING}, and none outside"
)
