#!/usr/bin/env python3
"""Looks up every name that the papers give: files, terms with their statements, fields, entries, edits, definitions.
Prints each that is not there, with paper and line, and the number of names. Exit status 1 where one is not there."""
import re
import sys

sys.dont_write_bytecode = True
from declared import CRATES, TOP, Declared

CLAIMS = TOP / "docs/CLAIMS.md"
PAPERS = [TOP / "README.md", CLAIMS, TOP / "docs/DECISIONS.md", TOP / "docs/PROOF.md"]
HEADER = TOP / "include/zilqodur.h"
ENGINE = "engine"
BUILT = "target/"
SUFFIXES = (".a", ".antt", ".c", ".h", ".md", ".py", ".rs", ".rt", ".sh", ".txt")

# What a bare name is, by the head of its column; elsewhere it is whatever the crates declare.
COLUMNS = {
    "Folder": "path",
    "Entry": "entry",
    "By": "edit",
    "Shut out by": "edit",
    "Edits that are refused, and rows": "edit",
}
# What stands in backquotes and is no name: keywords, C's functions, what is printed or set; types, commands.
WORDS = {"ensures", "requires", "pub", "let .. else", "unsafe extern", "usize", "rt", "read", "write"}
WORDS |= {"lseek", "axioms=5", "refused N at PLACE", "-", "CI"}
# Of the standard library and the language.
WORDS |= {"Result", "Ok", "Err", "Option", "From", "?", "for", "while", "Result<(), Refusal>", "From<Refusal>"}
NO_NAME = ("&", "[", "rt ", "bash ")

GOES_ON = re.compile(r"(?: \([^`)]*\))?,?(?: and)?(?: so)? ")
PATH_IN_CODE = re.compile(rf"(?<![\w./-])(?!{BUILT})[\w.-]+(?:/[\w.-]+)+|(?<![\w./-])[\w-]+\.(?:sh|py)\b")
NAME_OF_HEADER = re.compile(r"\b(?:zilqodur_|Zilqodur|ZILQODUR_)\w+")
LINK = re.compile(r"\]\((?!https?:)([^)#]+)")


def among(name, names):
    """Whether the name is there; of a name that ends in '..', whether one starts so."""
    if name.endswith(".."):
        return any(other.startswith(name[:-2]) for other in names)
    return name in names


class Paper:
    """A paper, read a line at a time. `checks` has line, name and whether it is there; `edits` the edits named."""

    def __init__(self, path, declared):
        self.path = path
        self.declared = declared
        self.checks = []
        self.edits = set()
        self.columns = []
        for self.number, line in enumerate(path.read_text("utf-8").splitlines(), 1):
            self.read(line)

    def note(self, name, there):
        """Keeps what was looked up."""
        self.checks.append((self.number, name, there))

    def read(self, line):
        """Code, a table's head or row, or text."""
        if line.startswith("    "):
            self.read_code(line)
            return
        if not line.startswith("|"):
            self.columns = []
        elif not self.columns:
            self.columns = [cell.strip() for cell in line.split("|")]
        for link in LINK.findall(line):
            self.note(link, (self.path.parent / link).exists())
        self.read_spans(line)

    def read_code(self, line):
        """Files, and names of the header."""
        for name in PATH_IN_CODE.findall(line):
            self.note(name, (TOP / name).exists())
        for name in NAME_OF_HEADER.findall(line):
            self.note(name, re.search(rf"\b{name}\b", HEADER.read_text("utf-8")))

    def read_spans(self, line):
        """What stands in backquotes. `base` is the last file or folder named, `crate` that of the last edit."""
        self.base, self.crate, self.owner, self.last, self.mode, self.outer = TOP, None, "", "", "name", "name"
        parts = line.split("`")
        if len(parts) % 2 == 0:
            self.note("a backquote that is not closed", False)
        for i in range(1, len(parts), 2):
            cell = sum(part.count("|") for part in parts[:i:2])
            usual = COLUMNS.get(self.columns[cell], "name") if self.columns else "name"
            self.mode = self.mode_after(parts[i - 1], usual)
            if parts[i] not in WORDS and not parts[i].startswith(NO_NAME):
                self.note(parts[i], self.is_there(parts[i]))
            self.last = parts[i]

    def mode_after(self, before, usual):
        """What a bare name is, by the text before it."""
        if re.search(r"\bfields? $", before):
            self.owner = self.last.split(" : ")[-1]
            return "field"
        if re.search(r"\brows? $", before):
            return "row"
        if re.search(r"\bcontracts? of $", before):
            return "entry"
        if before == ": " and "/" in self.last:
            return "listed"
        if before.endswith(" ("):
            self.outer = self.mode
            return "part" if self.mode == "field" else usual
        if before in ("), ", ") and ", "), and "):
            return self.outer
        return self.mode if GOES_ON.fullmatch(before) else usual

    def is_there(self, name):
        """By the form of the name, or else by the mode."""
        if "/must-fail/" in name:
            return self.is_edit(name)
        if " : " in name or ".antt: " in name:
            return self.is_statement(name)
        if "(" in name:
            return self.is_signature(*name.rstrip(")").split("(", 1))
        if "{" in name:
            record, *fields = re.findall(r"[\w-]+", name)
            return set(fields) <= self.declared.record(record)
        if "/" in name or name.endswith(SUFFIXES):
            return self.is_path(name)
        if "::" in name:
            return self.is_item(name.split("::")[0], name.split("::")[-1])
        return getattr(self, f"is_{self.mode}")(name.split()[0])

    def is_edit(self, name):
        """An edit of the crate named, or else of the last edit's crate, or else of any."""
        crate, _, label = name.rpartition("/must-fail/")
        self.crate = crate or self.crate
        found = {edit for edit in self.declared.edits if edit[1] == label and self.crate in (None, edit[0])}
        self.edits |= found
        return bool(found)

    def is_statement(self, name):
        """A term, of the file where one is named, whose type is the statement, which some specs declare."""
        file, _, rest = name.rpartition(".antt: ")
        term, _, statement = rest.partition(" : ")
        sources = self.declared.sources
        if file:
            self.base = CRATES / f"{file}.antt"
            self.mode = "listed"
            sources = self.declared.under(self.base)
        if not statement:
            return any(term in source.names for source in sources)
        stated = any(statement in source.names for source in self.declared.specs)
        return stated and any(source.types.get(term) == statement for source in sources)

    def is_signature(self, name, inside):
        """An entry with these parameters in this order, and their types where the paper gives them."""
        crate, _, function = name.rpartition("::")
        found = self.declared.parameters(crate or ENGINE, function) or []
        given = [parameter.split(": ") for parameter in inside.split(", ")]
        same = len(found) == len(given) and all(b[: len(a)] == a for a, b in zip(given, found))
        return same and function in self.declared.exports(crate or ENGINE)

    def is_path(self, name):
        """A file or folder of the repository, of the crates, in or beside the last one named, or of some crate."""
        if archive := re.fullmatch(r"lib(\w+)\.a", name):
            return archive[1] in self.declared.crates
        for base in (TOP, CRATES, self.base, self.base.parent):
            if (base / name).exists():
                self.base = base / name
                return True
        return any((CRATES / crate / name).exists() for crate in self.declared.crates)

    def is_item(self, crate, name):
        """What a crate's code declares or hands on, where contracts are named a public function; or of the kit."""
        if self.mode == "entry":
            return self.declared.parameters(crate, name) is not None
        return crate in self.declared.kit or name in self.declared.named(CRATES / crate / "src")

    def is_entry(self, name):
        """A function that the engine has for its callers, or a crate."""
        function = name in self.declared.exports(ENGINE) and self.declared.parameters(ENGINE, name) is not None
        return function or name in self.declared.crates

    def is_field(self, name):
        """A field of what stands before the list of fields."""
        return among(name, self.declared.fields(self.owner))

    def is_part(self, name):
        """A field of some record of the specs."""
        return any(among(name, fields) for source in self.declared.specs for fields in source.fields.values())

    def is_row(self, name):
        """A field of a table of the specs."""
        records = [record for source in self.declared.specs for record in source.fields.items()]
        return any(among(name, fields) for record, fields in records if record.endswith("Table"))

    def is_listed(self, name):
        """Declared in the file or folder before the list."""
        return among(name, self.declared.named(self.base))

    def is_name(self, name):
        """Declared in some file; or a module, a crate, a folder."""
        return among(name, self.declared.names) or self.is_path(name)


def main():
    declared = Declared()
    papers = [Paper(path, declared) for path in PAPERS]
    checks = [(paper.path.relative_to(TOP), *check) for paper in papers for check in paper.checks]
    missing = [f"{paper}:{number}: not there: {name}" for paper, number, name, there in checks if not there]
    named = [paper.edits for paper in papers if paper.path == CLAIMS]
    for crate, label in sorted(declared.edits.difference(*named)):
        missing.append(f"{CLAIMS.relative_to(TOP)}: not named: {crate}/must-fail/{label}")
    for line in missing:
        print(line)
    print(f"papers: {len(checks)} names, {len(missing)} not there or not named")
    return 1 if missing else 0


if __name__ == "__main__":
    sys.exit(main())
