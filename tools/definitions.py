#!/usr/bin/env python3
"""Which definitions the contract of a public call rests on, and which definitions nothing uses.

    tools/definitions.py                  what `run` of redact_cmd rests on, a row each: the definitions, in the order of their files,
                                          and then the traits, types and constants of .rt files that run and these name
    tools/definitions.py --check PAGE     status 1 where PAGE lacks one of these rows, or has one more
    tools/definitions.py --unused         definitions, laws and lemmas of specs/ and proofs/ that nothing reaches
    tools/definitions.py --stray          status 1 where a definition stands in specs/ that no clause reaches: what proofs alone use
                                          stands in proofs/

It reads the source text alone: the clauses of crates/*/src, the `ghost use` lines that import their words, the declarations
there, and the `use` lines of crates/*/specs and crates/*/proofs.
"""
import pathlib
import re
import sys

TOP = pathlib.Path(__file__).resolve().parent.parent / "crates"
CALL = ("redact_cmd", "run")
WORD = re.compile(r"[A-Za-z_][\w'≡≢-]*|[^\s\w(){}\[\],;.]+")
HEAD = re.compile(r"^(?:abbrev |unfoldable |pub |mutual )*(data |record |ruleset )?([^\s:]+)")


class Def:
    """A definition of an .antt file: its name, its kind and its text, with the comment in front of it."""

    def __init__(self, module, name, public, comment):
        self.module, self.name, self.public, self.comment, self.text = module, name, public, comment, []

    def key(self):
        return (self.module, self.name)


def parse(path, module):
    """The definitions of a file by name, and what it imports: a map from a local name to (module, name)."""
    defs, imports, current, comment = {}, {}, None, []
    text = path.read_text()
    for line in text.split("\n"):
        if line.startswith("--"):
            comment.append(line[2:].strip())
            continue
        if not line.strip():
            comment = []
            continue
        if line[0].isspace():
            if current:
                current.text.append(line)
                inner = re.match(r"^\s+(?:abbrev |unfoldable |pub )*(?:data |record )?([^\s:]+) :( |$)", line)
                if inner and current.name.startswith("module "):
                    defs.setdefault(inner.group(1), current)
            continue
        if line.startswith("use "):
            read_import(line[4:], imports)
            continue
        if line.startswith("module "):
            current = Def(module, line.split(" where")[0], False, " ".join(comment))
            current.text.append(line)
            named = re.match(r"module ([A-Z]\w*)", line)
            if named:
                defs.setdefault(named.group(1), current)
            comment = []
            continue
        if re.match(r"^(pub mod|mod|infix[lr]?|open|unfolding)\b", line):
            if line.startswith("unfolding") and current:
                current.text.append(line)
            continue
        head = HEAD.match(line)
        kind, name = head.group(1), head.group(2)
        declares = kind or re.match(r"^(?:abbrev |unfoldable |pub )*\S+ :( |$)", line)
        if declares and name not in defs:
            current = Def(module, name, " pub " in " " + line[: line.find(name)] or line.startswith("pub "), " ".join(comment))
            defs[name] = current
            if kind and kind.strip() == "data":
                pass
        comment = []
        if current:
            current.text.append(line)
    for definition in list(defs.values()):
        body = "\n".join(definition.text)
        if re.match(r"^(?:pub )?data ", body):
            for constructor in re.findall(r"^  (\S+) :", body, re.M):
                defs.setdefault(constructor, definition)
    return defs, imports


def read_import(rest, imports):
    rest = rest.strip().rstrip(";")
    match = re.match(r"Rattle\.([\w.+-]+?)\.\{(.*)\}$", rest)
    if match:
        for item in match.group(2).split(","):
            names = item.strip().split(" as ")
            if names[0]:
                imports[names[-1].strip()] = ("Rattle." + match.group(1), names[0].strip())
        return
    match = re.match(r"(Rattle\.[\w.+-]+?)(?: as (\w+))?$", rest)
    if match:
        imports[match.group(2) or match.group(1).split(".")[-1]] = (match.group(1), None)


def words_of(text):
    return set(WORD.findall(text))


def mentions(name, words, text):
    if name in ("◌>>=◌", "◌>>◌") and "do" in words:
        return True
    if "◌" in name:
        return all(part in text for part in name.split("◌") if part)
    return name in words


class Tree:
    """All definitions of the repository."""

    def __init__(self):
        self.defs, self.imports, self.order = {}, {}, []
        for directory in ("specs", "proofs"):
            for path in sorted(TOP.glob(f"*/{directory}/**/*.antt")):
                crate = path.relative_to(TOP).parts[0]
                inside = path.relative_to(TOP / crate).with_suffix("").parts
                module = ".".join(("Rattle", crate) + inside)
                self.defs[module], self.imports[module] = parse(path, module)
                self.order.append(module)

    def find(self, module, name):
        return self.defs.get(module, {}).get(name)

    def used(self, module, text):
        """The definitions that a text in a module names."""
        words = words_of(text)
        found = []
        for name, definition in self.defs.get(module, {}).items():
            if mentions(name, words, text):
                found.append(definition)
        return found + self.imported(self.imports.get(module, {}), words, text)

    def imported(self, imports, words, text):
        """The definitions that a text names by imports: each by its name, or as a word of a module."""
        found = []
        for name, (module, whole) in imports.items():
            if whole is None:
                found += [self.find(module, word) for word in re.findall(rf"(?<![\w.]){re.escape(name)}\.([\w'-]+)", text)]
            elif mentions(name, words, text):
                found.append(self.find(module, whole))
        return [definition for definition in found if definition]

    def reach(self, roots):
        seen, left = {}, list(roots)
        while left:
            definition = left.pop(0)
            if definition.key() in seen:
                continue
            seen[definition.key()] = definition
            left += self.used(definition.module, "\n".join(definition.text))
        return seen


def ghost_imports(text):
    imports = {}
    for rest in re.findall(r"ghost use (.*?);", text, re.S):
        read_import(" ".join(rest.split()), imports)
    return imports


def clauses(text):
    """The texts between the braces of clauses, ghost fields and ghost members."""
    found = []
    for match in re.finditer(r"(?:requires|ensures|ghost)\*?\s*[\w]*\s*(?:[:=]\s*)?\{", text):
        depth, at = 1, match.end()
        while depth and at < len(text):
            depth += {"{": 1, "}": -1}.get(text[at], 0)
            at += 1
        found.append(text[match.end() : at - 1])
    return "\n".join(found)


def header_of(text, name):
    """The contract of a function: from its name to its body."""
    start = re.search(rf"pub fn {name}\b", text)
    return text[start.start() : text.index("\n{", start.start())] if start else None


def header_roots(tree, path, header):
    """The definitions that the clauses of a header in a file name."""
    part = clauses(header)
    return tree.imported(ghost_imports(path.read_text()), words_of(part), part)


def clause_roots(tree):
    """The definitions that the clauses of all functions name."""
    return [root for path in sorted(TOP.glob("*/src/**/*.rt")) for root in header_roots(tree, path, path.read_text())]


def rust_roots(tree):
    roots = clause_roots(tree)
    for path in sorted(TOP.glob("*/src/**/*.rt")):
        text = path.read_text()
        for crate_path in re.findall(r"(?:using|unfolding)\(([^)]*)\)", text):
            for item in crate_path.split(","):
                parts = item.strip().split("::")
                parts[0] = path.relative_to(TOP).parts[0] if parts[0] == "crate" else parts[0]
                definition = tree.find(".".join(["Rattle"] + parts[:-1]), parts[-1])
                if definition:
                    roots.append(definition)
    return roots


def unused(tree):
    roots = rust_roots(tree)
    for module in tree.order:
        last = module.split(".")[-1]
        if last in ("Answers", "Invariants", "Proof") or re.search(r"Rows?$|[a-z]T$", last):
            roots += list(tree.defs[module].values())
    seen = tree.reach(roots)
    for module in tree.order:
        for definition in dict.fromkeys(tree.defs[module].values()):
            if definition.key() not in seen:
                print(f"{module}: {definition.name}")


def stray(tree):
    """The definitions of specs/ that no clause reaches."""
    seen = tree.reach(clause_roots(tree))
    specs = [module for module in tree.order if ".specs." in module]
    return [f"{d.module}: {d.name}" for module in specs for d in dict.fromkeys(tree.defs[module].values()) if d.key() not in seen]


def inner(tree, definition):
    """The definitions of a parametrized module, or the definition itself."""
    if not definition.name.startswith("module "):
        return [definition]
    names = [name for name, other in tree.defs[definition.module].items() if other is definition]
    return [Def(definition.module, name, True, "") for name in names]


DECLARATION = re.compile(r"((?:^///.*\n)*)(?:^#\[.*\]\n)*^pub (enum|struct|trait|const) (\w+)(?:.*;$|[^{;]*\{(?s:.*?)^\})", re.M)


class Declared:
    """A trait, a type or a constant of an .rt file, with its comment."""

    def __init__(self, path, match):
        self.path, self.kind, self.name, self.text = path, match[2], match[3], match[0]
        self.says = " ".join(re.sub(r"^/// ?", "", match[1], flags=re.M).split())

    def row(self):
        number = re.search(r" = (\w+);", self.text) if self.kind == "const" else None
        value = f" = {int(number[1], 0):,}" if number else ""
        return f"`{self.name}`{value} ({self.path.relative_to(TOP.parent)})"


class Sources:
    """The declarations of the .rt files, by crate and name."""

    def __init__(self):
        self.of = {}
        for path in sorted(TOP.glob("*/src/**/*.rt")):
            for match in DECLARATION.finditer(path.read_text()):
                self.of.setdefault((path.relative_to(TOP).parts[0], match[3]), Declared(path, match))

    def named(self, path, text):
        """The declarations that a text in a file names: those of its own crate, and those that it imports."""
        crates = {name: path.relative_to(TOP).parts[0] for name in words_of(text)}
        for crate, names in re.findall(r"^use (\w+)::(?:\w+::)*(\{[^}]*\}|\w+);", path.read_text(), re.M):
            crates.update({name: crate for name in words_of(names) if name in crates and crate != "crate"})
        return [self.of[crate, name] for name, crate in crates.items() if (crate, name) in self.of]

    def reach(self, roots):
        seen, left = set(), list(roots)
        while left:
            declared = left.pop()
            if declared not in seen:
                seen.add(declared)
                left += self.named(declared.path, declared.text) if declared.kind != "const" else []
        return sorted(seen, key=lambda declared: (declared.path, declared.name))

    def imported(self, tree, definition):
        """The declarations that a definition names."""
        text = "\n".join(definition.text)
        words, found = words_of(text), []
        for name, (module, whole) in tree.imports[definition.module].items():
            crate, _, inside = module.removeprefix("Rattle.").partition(".specs.declared.")
            parts = [part for part in inside.split(".") + [whole or ""] if part and part != "TheVariants"]
            found += [self.of[crate, part] for part in parts if mentions(name, words, text) and (crate, part) in self.of]
        return found


def rows_of(tree):
    """The rows of what the call rests on, each with what it says."""
    sources = Sources()
    path = next(path for path in TOP.glob(f"{CALL[0]}/src/**/*.rt") if header_of(path.read_text(), CALL[1]))
    header = header_of(path.read_text(), CALL[1])
    traits = [declared for declared in sources.named(path, header) if declared.kind == "trait"]
    roots = header_roots(tree, path, header) + [root for trait in traits for root in header_roots(tree, trait.path, trait.text)]
    seen = tree.reach(roots)
    found = [d for module in tree.order for d in dict.fromkeys(tree.defs[module].values()) if d.key() in seen]
    rows = {}
    for definition in (each for outer in found for each in inner(tree, outer)):
        _, crate, _, *file = definition.module.split(".")
        rows[f"`{definition.name}` ({crate}, {'.'.join(file)})"] = definition.comment
    declared = sources.reach(traits + [other for definition in found for other in sources.imported(tree, definition)])
    rows.update({each.row(): each.says for each in declared})
    return rows


def differences(rows, page):
    """What a page lacks of these rows, and what it has beside them."""
    there = re.findall(r"^\| (`[^`]+`(?: = [\d,]+)? \([^)]*\)) \|", page, re.M)
    return (
        [f"the page lacks {row}" for row in rows if row not in there]
        + [f"the page has {row}, on which run doesn't rest" for row in there if row not in rows]
        + [f"the page has {row} twice" for row in sorted(set(there)) if there.count(row) > 1]
    )


def report(found):
    """Prints what was found; the status is 1 where that is anything."""
    lines = list(found)
    print("\n".join(lines), end="\n" if lines else "")
    return 1 if lines else 0


def main():
    tree = Tree()
    if "--unused" in sys.argv:
        unused(tree)
        return 0
    if "--stray" in sys.argv:
        return report(f"{name} stands in specs/, and no clause reaches it" for name in stray(tree))
    rows = rows_of(tree)
    if "--check" in sys.argv:
        return report(differences(rows, pathlib.Path(sys.argv[sys.argv.index("--check") + 1]).read_text()))
    for row, says in rows.items():
        print(f"| {row} | {says} |")
    return 0


if __name__ == "__main__":
    sys.exit(main())
