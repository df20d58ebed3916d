"""What the other tools read of the sources: what a file declares, and what each declaration names."""
import pathlib
import re

ROOT = pathlib.Path(__file__).resolve().parent.parent
WORD = re.compile(r"[^\s(){}.;,@\"]+")
MARKS = r"(?:(?:unfoldable|abbrev|pub|axiom) )*"
SIGNATURE = re.compile(rf"^( *){MARKS}(?P<name>\S+)(?: \{{[^}}]*\}})? :(?: |$)")
BLOCK = re.compile(rf"^( *){MARKS}(?:data|record) (?P<name>\S+)")
SECTION = re.compile(r"^ *module _ .*where$|^ *module _ ")
USE = re.compile(r"^(?:ghost )?(?:pub )?use (?P<module>[^\s{]+?)(?:\.\{(?P<names>[^}]*)\})?(?: as (?P<alias>\S+?))?;?$")
RATTLE = re.compile(r"^ *(?:pub(?:\([a-z]+\))? )?(?:fn|struct|enum|trait|type|const|static|mod) (\w+)|^ *(?:pub )?(\w+)(?:: |\(|,| \{|$)")
RUST = re.compile(r"^ *(?:pub(?:\([a-z]+\))? )?(?:fn|struct|enum|const|static|mod|type) (\w+)|^ *(?:pub )?(\w+)(?:: |\(|,| \{)")


IMPORT = re.compile(r"^(?:ghost )?(?:pub )?use [^;{}\n]*\{[^}]*\}", re.M)


def lines_of(path):
    """The lines of a file, with each import on one line."""
    return IMPORT.sub(lambda m: re.sub(r"\s*\n\s*", " ", m[0]).replace("{ ", "{").replace(", }", "}"), path.read_text()).splitlines()


def code_lines(path):
    """How many lines of a file are neither blank nor comment nor an import."""
    return sum(1 for line in lines_of(path) if line.strip() and not line.strip().startswith(("--", "//", "use ", "ghost use ")))


class Antt:
    """A file of definitions: its `use` lines, and for each declaration its text and the names it makes."""

    def __init__(self, path):
        self.path = path
        self.names = {}  # a name made here: the declaration that makes it
        self.bodies = {}  # a declaration: its text
        self.brought = {}  # a name brought in: (module, name there)
        self.aliases = {}  # a module's short name: the module
        self.read(lines_of(path))

    def read(self, lines):
        current, indent, is_block, sections = None, 0, False, [0]
        for line in lines:
            if m := USE.match(line):
                self.bring(m)
                continue
            if not line.strip() or line.strip().startswith("--"):
                continue
            depth = len(line) - len(line.lstrip())
            while depth < sections[-1]:
                sections.pop()
            if SECTION.match(line):
                sections.append(depth + 2)
                continue
            block, signature = BLOCK.match(line), SIGNATURE.match(line)
            if depth == sections[-1] and (block or signature):
                current = (block or signature)["name"]
                indent, is_block = depth, bool(block)
                self.make(current, current)
                self.bodies[current] = line + "\n"
            elif current:
                self.bodies[current] += line + "\n"
                # a constructor or a field of the declaration above
                if is_block and signature and depth == indent + 2:
                    self.make(signature["name"], current)

    def make(self, name, declaration):
        self.names.setdefault(name, declaration)
        # an operator is written without the marks of its places
        if "◌" in name:
            self.names.setdefault(name.strip("◌"), declaration)

    def bring(self, m):
        module, names, alias = m["module"], m["names"], m["alias"]
        if names is None:
            self.aliases[alias or module.split(".")[-1]] = module
            return
        for item in names.split(","):
            parts = item.strip().split(" as ")
            self.brought[parts[-1].strip().strip("◌")] = (module, parts[0].strip())
            self.brought[parts[-1].strip()] = (module, parts[0].strip())


def declared(path):
    """The names that a file declares."""
    text = path.read_text()
    if path.suffix == ".antt":
        return set(Antt(path).names)
    form = RATTLE if path.suffix == ".rt" else RUST
    return {g for line in text.splitlines() if (m := form.match(line)) for g in m.groups() if g}


def spec_file(module, own=None):
    """The file of a crate's specs/ that a module's name means, or None."""
    m = re.match(r"Rattle\.([a-z_]+)\.specs\.(.+)$", module)
    if not m or m[2].startswith("declared"):
        return None
    path = ROOT / "crates" / m[1] / "specs" / (m[2].replace(".", "/") + ".antt")
    return path if path.exists() else None


HEAD = re.compile(r"^\s*(?P<vis>pub(?:\([a-z]+\))? )?fn (?P<name>\w+)", re.M)
CLAUSE = re.compile(r"\b(requires|ensures)(?: \w+)? \{")


def clauses(head):
    """Of each clause of a function's head: its kind, and its text."""
    for m in CLAUSE.finditer(head):
        depth, at = 1, m.end()
        while depth:
            depth += {"{": 1, "}": -1}.get(head[at], 0)
            at += 1
        yield m[1], re.sub(r"\s+", " ", head[m.end() : at - 1]).strip()


def functions(crate):
    """Of each function: its file, its name, whether it is public, what it ensures, and what it requires."""
    for path in sorted((crate / "src").rglob("*.rt")):
        text = re.sub(r"//[^\n]*", "", path.read_text())
        heads = list(HEAD.finditer(text))
        for i, m in enumerate(heads):
            end = heads[i + 1].start() if i + 1 < len(heads) else len(text)
            head = re.split(r"\n *\{\n", text[m.end():end])[0]
            said = {"requires": [], "ensures": []}
            for kind, what in clauses(head):
                said[kind].append(what)
            yield path, m["name"], (m["vis"] or "").strip() == "pub", said["ensures"], said["requires"]


def crates(root):
    return [c for c in sorted((ROOT / "crates").iterdir()) if (c / "src" / root).exists()]


def libraries():
    return crates("lib.rt")


def programs():
    return crates("main.rt")


def ghost_uses(path):
    """What a source file brings into its contracts."""
    brought, aliases = {}, {}
    for line in lines_of(path):
        m = USE.match(line)
        if not m or not line.startswith("ghost"):
            continue
        if m["names"] is None:
            aliases[m["alias"] or m["module"].split(".")[-1]] = m["module"]
            continue
        for item in m["names"].split(","):
            parts = item.strip().split(" as ")
            brought[parts[-1].strip()] = (m["module"], parts[0].strip())
    return brought, aliases
