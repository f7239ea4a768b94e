#!/usr/bin/env python3
"""Compares docs/definitions.md with the contracts.

Each definition of a crate's specs/ that the contract of a public function, a public trait or a ghost
field of a public type cites has to stand in the section of its crate, in a row with its file; and each
row has to name definitions that stand in that file. Ends with `N passed, M failed`.
"""

import re
import sys
from pathlib import Path

TOP = Path(__file__).resolve().parent.parent
PAGE = TOP / "docs" / "definitions.md"
WORD = re.compile(r"[A-Za-z_][A-Za-z0-9_']*")
IMPORT = re.compile(r"ghost use Rattle\.(dt_\w+)\.specs\.([\w.]+)\.\{([^}]*)\}")
DEFINED = re.compile(r"^(?:abbrev |unfoldable )?pub (?:record |data )?(\w[\w']*)", re.MULTILINE)
CONSTRUCTOR = re.compile(r"^  (\w[\w']*) : ", re.MULTILINE)


def crates():
    """The crates of the repository, lowest first."""
    for line in (TOP / "crates.txt").read_text().splitlines():
        name = line.split("#")[0].split(":")[0].strip()
        if name:
            yield name


def exported(crate):
    """The names that the crate's root makes public."""
    root = TOP / "crates" / crate / "src" / "lib.rt"
    if not root.exists():
        return set()
    found = set()
    for names in re.findall(r"pub use [\w:]+::(\{[^}]*\}|\w+)", root.read_text()):
        found.update(WORD.findall(names))
    found.update(re.findall(r"^pub (?:fn|struct|enum|trait) (\w+)", root.read_text(), re.MULTILINE))
    return found


def contracts(source, public):
    """The clauses of public functions, ghost members of public traits and ghost fields of public types."""
    owner, inside, contract = "", False, []
    for line in source.splitlines():
        block = re.match(r"(?:pub )?(?:impl(?:<[^{]*?>)?\s+(?:[\w<>', ]+ for )?|trait |struct |enum )(\w+)", line)
        if block:
            owner = block.group(1)
        elif re.match(r"(?:pub )?(?:const )?fn ", line):
            owner = ""
        head = re.match(r"\s*(pub )?(?:const |final )*fn (\w+)", line)
        if head:
            shown = head.group(2) in public if not owner else owner in public
            inside = shown
        field = re.match(r"\s+(?:pub )?ghost (?!use)\w+\s*[:=]", line)
        if field and owner in public:
            contract.append(line)
        elif inside:
            contract.append(line)
            if re.search(r"(^\s*|\) )\{$|-> .*\{$|;$", line) or line.strip() == "{":
                inside = False
    return "\n".join(contract)


def cited(crate):
    """The definitions that public contracts of the crate cite, each with its crate and file."""
    public = exported(crate)
    for path in sorted((TOP / "crates" / crate / "src").rglob("*.rt")):
        if path.name == "tests.rt":
            continue
        source = path.read_text()
        clauses = " ".join(re.findall(r"\{.*", contracts(source, public)))
        words = set(WORD.findall(contracts(source, public)))
        for owner, module, names in IMPORT.findall(source):
            if module.startswith("declared") or not clauses:
                continue
            for name in names.split(","):
                name = name.split(" as ")[-1].strip(), name.split(" as ")[0].strip()
                if name[0] in words and "◌" not in name[1]:
                    yield owner, module.replace(".", "/") + ".antt", name[1]


def listed():
    """The rows of the page: crate, file and name."""
    crate = ""
    for line in PAGE.read_text().splitlines():
        heading = re.match(r"#+ .*?(dt_\w+)", line)
        if heading:
            crate = heading.group(1)
        cells = [cell.strip() for cell in line.strip().strip("|").split("|")]
        if crate and len(cells) >= 3 and cells[1].endswith(".antt"):
            for name in re.findall(r"`([^`]+)`", cells[0]):
                yield crate, cells[1], name


def stands(crate, file, name):
    """Whether the file of the crate's specs/ has this definition, or a constructor of this name."""
    path = TOP / "crates" / crate / "specs" / file
    if not path.exists():
        return False
    text = path.read_text()
    return name in DEFINED.findall(text) + CONSTRUCTOR.findall(text)


def main():
    page = set(listed())
    wanted = {row for crate in crates() for row in cited(crate)}
    missing = sorted(wanted - page)
    stale = sorted(row for row in page if not stands(*row))
    for crate, file, name in missing:
        print(f"missing: {name} of crates/{crate}/specs/{file}")
    for crate, file, name in stale:
        print(f"no such definition: {name} of crates/{crate}/specs/{file}")
    failed = len(missing) + len(stale)
    print(f"{len(wanted | page) - failed} passed, {failed} failed")
    return 1 if failed else 0


if __name__ == "__main__":
    sys.exit(main())
