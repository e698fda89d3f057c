"""What a definition names, and what that names in turn: declarations of specs/ and of code, with their lines."""
import os
import re

CRATES = os.path.join(os.path.dirname(os.path.abspath(__file__)), "..", "crates")
STARTS = re.compile(r"(?:(?:abbrev|unfoldable) )?(?:pub )?(?:(record|data) )?(\S+)")
TOKEN = re.compile(r"[^\s(){}\[\],;→λ×∷]+")
CODE = r"^(?:pub(?:\(crate\))? )?(?:struct|enum|trait|type|const) {name}\b"


def lines_of(path):
    with open(os.path.join(CRATES, path)) as file:
        return file.read().splitlines()


def is_code(line):
    """Whether a line is neither blank nor a comment, nor an attribute of code."""
    return bool(line.strip()) and not line.strip().startswith(("--", "//", "#[", "#!["))


def files_in(folder, ending):
    for place, _, names in sorted(os.walk(os.path.join(CRATES, folder))):
        for name in sorted(names):
            if name.endswith(ending):
                yield os.path.relpath(os.path.join(place, name), CRATES)


def imports_of(text, pattern):
    """Local names to the modules and names behind them: whole modules have no name there."""
    found = {}
    for module, names, alias in re.findall(pattern, text, flags=re.M):
        if alias:
            found[alias] = (module, None)
        for item in filter(None, (it.strip() for it in names.split(","))):
            name, _, local = item.partition(" as ")
            found[local.strip() or name.strip()] = (module, name.strip())
    return found


class Module:
    """A file of definitions: what it declares, by name, and what it imports."""

    def __init__(self, path):
        self.path, self.declared, self.owner = path, {}, {}
        text = "\n".join(lines_of(path))
        self.imports = imports_of(text, r"^(?:pub )?use Rattle\.([\w.-]+?)(?:\.\{([^}]*)\}| as (\w+))$")
        last = kind = None
        for line in lines_of(path):
            if not is_code(line) or re.match(r"(?:pub )?(?:use|mod) |infix", line):
                continue
            if re.match(r"(?:abbrev|unfoldable|pub|record|data)\b", line):
                kind, last = STARTS.match(line).groups()
                self.declared[last], self.owner[last] = [], last
            elif kind == "data" and re.match(r"  \S+ :", line):
                self.owner[line.split()[0]] = last
            if last:
                self.declared[last].append(line)


class Names:
    """All declarations of the repository."""

    def __init__(self):
        self.modules = {}
        for crate in sorted(os.listdir(CRATES)):
            for path in files_in(f"{crate}/specs", ".antt"):
                self.modules[path[: -len(".antt")].replace("/", ".")] = Module(path)

    def place(self, module, name):
        """The declaration that a name of a module is: a file with the declaration's name and its lines."""
        crate = module.split(".")[0]
        if ".specs.declared" in module:
            parts = [it for it in module.split(".")[3:] if it not in ("TheVariants", "TheConstants")]
            wanted = name if module.endswith("TheConstants") else next((it for it in parts if it[:1].isupper()), name)
            return self.in_code(crate, wanted)
        there = self.modules.get(module)
        owner = there and there.owner.get(name)
        return owner and (there.path, owner, there.declared[owner])

    def in_code(self, crate, name):
        for path in files_in(f"{crate}/src", ".rt"):
            lines = lines_of(path)
            for at, line in enumerate(lines):
                if re.match(CODE.format(name=re.escape(name)), line):
                    end = at
                    while not re.search(r"[;}]\s*$", lines[end]) or lines[end].startswith(" "):
                        end += 1
                    return path, name, [it for it in lines[at : end + 1] if is_code(it)]
        return None

    def named(self, path, lines):
        """The declarations that a declaration's lines name."""
        text = "\n".join(lines_of(path))
        own = path.split("/")[0]
        if path.endswith(".rt"):
            yield from self.named_by_code(own, text, lines)
            return
        module = self.modules[path[: -len(".antt")].replace("/", ".")]
        for token in {it for line in lines for it in TOKEN.findall(line)}:
            first, _, rest = token.partition(".")
            if token in module.owner:
                yield module.path, module.owner[token], module.declared[module.owner[token]]
            elif first in module.imports:
                target, name = module.imports[first]
                yield self.place(target, name or rest)

    def named_by_code(self, own, text, lines):
        code = imports_of(text, r"^use (\w+)::(?:[\w:]*?)\{?([^;{}]*)\}?;()$")
        ghost = imports_of(text, r"^ghost use Rattle\.([\w.-]+?)(?:\.\{([^}]*)\}| as (\w+));$")
        for token in {it for line in lines for it in re.findall(r"\w+", line)}:
            if token in ghost and ghost[token][1]:
                yield self.place(*ghost[token])
            elif token in code or token[:1].isupper():
                crate, name = code.get(token, (own, token))
                yield self.in_code(own if crate == "crate" else crate, name)

    def reached(self, roots, closed):
        """What is named from the roots: the lines of each declaration by file and name. What is closed, by crate and
        name, isn't opened."""
        found, todo = {}, list(roots)
        while todo:
            place = todo.pop()
            if place is None or place[:2] in found or f"{place[0].split('/')[0]}.{place[1]}" in closed:
                continue
            path, name, lines = place
            found[path, name] = lines
            todo += self.named(path, lines)
        return found
