#!/usr/bin/env python3
"""Makes docs/DEFINITIONS.md from the comments in crates/*/specs/*.antt and the laws in crates/*/src/laws.rt.

    docs/definitions.py >docs/DEFINITIONS.md     writes the map
    docs/definitions.py lacking                  lists files of specs/ with no head comment or no source in it, and
                                                 public definitions with no comment
"""
import os
import re
import sys

ROOT = os.path.dirname(os.path.dirname(os.path.realpath(__file__)))
HEAD = """# The map of definitions

`docs/definitions.py` makes this file from the comments in `specs/` and the laws in `src/laws.rt`. Change them there.

A definition in `specs/` says what a word means, a contract in `src/` uses it, and a proof in `proofs/` shows that the
contract holds. A law is a function in `src/laws.rt` that does nothing. Its contract states a fact about definitions alone.
Each crate uses only crates that come before it. The files are in `crates/NAME/specs/`.

Each file begins with its own comment and its source. The source is a clause of OMG DDSI-RTPS 2.5 by number, or of another
standard that is named; or it is `own:` and the reason, if this project made a choice. Then come its public
definitions, each with the first sentence of its comment. After the arrow are the files of `src/` whose contracts use the
definition. A definition without an arrow is used by other definitions.
"""
DEFINES = re.compile(r"^(?:(?:abbrev|unfoldable|opaque)\s+)*pub\s+(?:(?:abbrev|unfoldable|opaque|record|data)\s+)*([^\s:(){}]+)")
SOURCE = re.compile(r"\bDDSI-RTPS\b|\bDDS 1\.4\b|\bPCAP Capture File Format\b|\bRFC \d+\b|\bown:")


def read(path):
    with open(os.path.join(ROOT, path), encoding="utf-8") as file:
        return file.read()


def crates():
    """Each crate that crates.txt names, behind those that it stands on."""
    below = {}
    for line in read("crates.txt").splitlines():
        name, colon, libraries = line.partition("#")[0].partition(":")
        if colon:
            below[name.split()[0]] = libraries.split()
    ordered = []

    def visit(name):
        if name in below and name not in ordered:
            for library in sorted(below[name]):
                visit(library)
            ordered.append(name)

    for name in sorted(below):
        visit(name)
    return ordered


def files(folder, ending):
    found = []
    for at, folders, names in os.walk(os.path.join(ROOT, folder)):
        folders.sort()
        found += [os.path.relpath(os.path.join(at, name), ROOT) for name in sorted(names) if name.endswith(ending)]
    return found


def joined(lines):
    return " ".join(line.strip() for line in lines if line.strip())


def first_sentence(text):
    """Up to a full stop that ends a sentence, outside of parentheses and of quotes."""
    depth, quoted = 0, False
    for at, letter in enumerate(text):
        depth += {"(": 1, ")": -1}.get(letter, 0)
        quoted ^= letter == '"'
        if letter == "." and depth <= 0 and not quoted and re.match(r"\.\s+[A-Z]|\.\s+own:|\.$", text[at:]):
            return text[:at]
    return text.rstrip(".")


def own_source(text):
    """What a comment says of its source behind its first sentence."""
    rest = text[len(first_sentence(text)) :]
    found = re.search(r"\bown: (.*)", rest)
    return f" (own: {first_sentence(found[1])})" if found else ""


def parts(path):
    """The head comment of a file of specs/, and its public definitions as pairs of a name and a comment."""
    head, found, comment, begun = [], [], [], False
    for line in read(path).splitlines():
        if line.startswith("--"):
            comment.append(line[2:])
            continue
        if not begun and comment and (not line.strip() or line.startswith("use ") or line.startswith("pub use ")):
            head, comment = comment, []
        begun = begun or bool(line.strip())
        name = DEFINES.match(line)
        if name and not line.startswith(("pub mod ", "pub use ")):
            if name[1] not in [it[0] for it in found]:
                found.append((name[1], joined(comment)))
            comment = []
        elif not line.strip() or not line.startswith((" ", "\t")):
            comment = []
    return joined(head), found


def uses():
    """For each pair of a module of specs/ and a name, the files of src/ that bring the name in for their clauses, or its module."""
    found = {}
    for crate in crates():
        for path in files(f"crates/{crate}/src", ".rt"):
            if os.path.basename(path).startswith("test") or "/tests/" in path:
                continue
            text = read(path)
            for module, names in re.findall(r"ghost use Rattle\.(\w+\.specs\.[\w.]+?)\.\{([^}]*)\}", text):
                for name in names.split(","):
                    found.setdefault((module, name.split(" as ")[0].strip()), set()).add((crate, path))
            for module, called in re.findall(r"ghost use Rattle\.(\w+\.specs\.[\w.]+) as (\w+);", text):
                for name in re.findall(rf"(?<![\w.]){called}\.(\w+)", text):
                    found.setdefault((module, name), set()).add((crate, path))
    return found


def used(crate, module, name, users):
    shown = []
    for other, path in sorted(users.get((f"{crate}.specs.{module}", name), ())):
        short = path.split("/src/")[1]
        shown.append(f"`{short}`" if other == crate else f"{other} `{short}`")
    return f" → {', '.join(shown)}" if shown else ""


def about(crate):
    """The //! comment of a crate."""
    for root in ("lib", "main"):
        path = f"crates/{crate}/src/{root}.rt"
        if os.path.isfile(os.path.join(ROOT, path)):
            lines = read(path).splitlines()
            return joined(line[3:] for line in lines if line.startswith("//!"))
    return ""


def laws(crate):
    """The public functions of src/laws.rt that have a contract, each with its comment."""
    path = f"crates/{crate}/src/laws.rt"
    if not os.path.isfile(os.path.join(ROOT, path)):
        return []
    found, comment = [], []
    for line in read(path).splitlines():
        if line.startswith("///"):
            comment.append(line[3:])
        elif line.startswith("pub fn "):
            found.append((re.match(r"pub fn (\w+)", line)[1], joined(comment)))
            comment = []
        elif not line.startswith("#["):
            comment = []
    return found


def specs(crate):
    return [it for it in files(f"crates/{crate}/specs", ".antt") if os.path.basename(it) != "Lib.antt"]


def module_of(crate, path):
    return path[len(f"crates/{crate}/specs/") : -len(".antt")].replace("/", ".")


def make():
    users = uses()
    print(HEAD, end="")
    for crate in crates():
        if not specs(crate) and not laws(crate):
            continue
        print(f"\n## {crate}\n\n{about(crate)}")
        for path in specs(crate):
            head, found = parts(path)
            print(f"\n### {path.split('/specs/')[1]}\n")
            if head:
                print(f"{head}\n")
            for name, comment in found:
                text = f": {first_sentence(comment)}{own_source(comment)}" if comment else ""
                print(f"- `{name}`{text}{used(crate, module_of(crate, path), name, users)}")
        if laws(crate):
            print("\n### Laws\n")
            for name, comment in laws(crate):
                print(f"- `{name}`: {comment}" if comment else f"- `{name}`")


def lacking():
    for crate in crates():
        for path in specs(crate):
            head, found = parts(path)
            if not head:
                print(f"{path}: no head comment")
            elif not SOURCE.search(head):
                print(f"{path}: no source in its head comment")
            bare = [name for name, comment in found if not comment]
            if bare:
                print(f"{path}: no comment at {', '.join(bare)}")


if __name__ == "__main__":
    if sys.argv[1:] == ["lacking"]:
        lacking()
    elif len(sys.argv) == 1:
        make()
    else:
        sys.exit(__doc__)
