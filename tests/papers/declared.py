"""What the crates declare: terms with their types, records with their fields, functions with their parameters, edits.
Each file is read by the form of its lines."""
import re
from pathlib import Path

TOP = Path(__file__).resolve().parents[2]
CRATES = TOP / "crates"
CRATE_LIST = TOP / "crates.txt"

WORD = r"[^\s:;,(){}\[\]=|]+"
NO_TERM = r"(?! *(?:pub )?(?:record|data|module|let|use) )"
TERM = re.compile(rf"^{NO_TERM}( *)((?:(?:pub|abbrev|unfoldable) )*)((?:{WORD} )+):((?: .*)?(?:\n\1 +.*)*)", re.M)
RECORD = re.compile(rf"^( *)(?:pub )?(?:record|data) ({WORD})(.*(?:\n(?:\1 +.*)?)*)", re.M)
FUNCTION = re.compile(r'^ *(pub )?(?:extern "C" )?fn (\w+)(?:<[^()]*>)?\(([^)]*)\)', re.M)
CONSTANT = re.compile(r"^ *(?:pub )?const (\w+): \w+ = (\w+);", re.M)
STRUCT = re.compile(r"^ *(?:pub )?(?:struct|enum) (\w+) \{\n(.*?)^ *\}$", re.M | re.S)
MEMBER = re.compile(r"^ *(?:pub )?(\w+)|(\w+):", re.M)
ITEM = re.compile(r"^ *(?:pub )?(?:struct|enum|mod|const) (\w+)", re.M)
HANDED_ON = re.compile(r"^pub use (\w+)::(?:\w+::)*(?:(\w+)|\{([^{}]*)\});", re.M)
WRITTEN = ("src", "specs", "proofs")


class Source:
    """A file: its `names`, the `types` of terms, the `fields` of records and structs, its public `functions`."""

    def __init__(self, path):
        self.path = path
        self.text = path.read_text("utf-8")
        self.names = set()
        self.types = {}
        self.fields = {}
        self.functions = {}
        self.handed_on = {}
        if path.suffix == ".antt":
            self.read_terms()
        else:
            self.read_code()
        for name, fields in self.fields.items():
            self.names.update([name], fields)

    def read_terms(self):
        """Terms at the margin with their types, public terms in modules, records; not what is local to a proof."""
        for margin, marks, names, kind in TERM.findall(self.text):
            if not margin or "pub" in marks:
                self.names.update(names.split())
            if not margin:
                self.types.update(dict.fromkeys(names.split(), " ".join(kind.split())))
        for _, name, body in RECORD.findall(self.text):
            self.fields[name] = {word for _, _, names, _ in TERM.findall(body) for word in names.split()}

    def read_code(self):
        """Functions with the parameters of the public ones, structs, enums, modules, constants, what is handed on."""
        constants = dict(CONSTANT.findall(self.text))
        for public, name, inside in FUNCTION.findall(self.text):
            self.names.add(name)
            if public:
                inside = re.sub(r"\b[A-Z]\w+", lambda word: constants.get(word[0], word[0]), inside)
                self.functions[name] = [part.strip().split(": ") for part in inside.split(",") if part.strip()]
                self.names.update(parameter[0] for parameter in self.functions[name])
        for name, body in STRUCT.findall(self.text):
            self.fields[name] = {first or other for first, other in MEMBER.findall(body)}
        for origin, name, several in HANDED_ON.findall(self.text):
            self.handed_on.update(dict.fromkeys([name] if name else re.findall(r"\w+", several), origin))
        self.names.update(ITEM.findall(self.text))


class Declared:
    """All files of the crates."""

    def __init__(self):
        folders = [folder for written in WRITTEN for folder in CRATES.glob(f"*/{written}")]
        paths = sorted(path for folder in folders for path in folder.rglob("*"))
        self.sources = [Source(path) for path in paths if path.suffix in (".antt", ".rt")]
        self.specs = [source for source in self.sources if source.path.parent.name == "specs"]
        self.crates = {path.name for path in CRATES.iterdir() if path.is_dir()}
        listed = re.findall(r"^(\w+):(.*)", CRATE_LIST.read_text("utf-8"), re.M)
        self.kit = {crate for _, used in listed for crate in used.split()} - {crate for crate, _ in listed}
        self.edits = {(path.parent.parent.name, path.stem) for path in CRATES.glob("*/must-fail/*.edit")}
        modules = {source.path.stem for source in self.sources}
        self.names = modules.union(self.crates, self.kit, *(source.names for source in self.sources))

    def under(self, path):
        """The sources in a file or folder."""
        return [source for source in self.sources if f"{source.path}/".startswith(f"{path}/")]

    def named(self, path):
        """What the sources in a file or folder declare, or hand on from where it is declared."""
        sources = self.under(path)
        handed_on = set().union(*(source.handed_on for source in sources))
        return (handed_on & self.names).union(*(source.names for source in sources))

    def record(self, name):
        """The fields of the records with this name."""
        return set().union(*(source.fields.get(name, ()) for source in self.sources))

    def fields(self, name):
        """The fields of a record, or of the record that a statement, or a term's statement, ends in."""
        types = {source.types[name] for source in self.sources if name in source.types}
        found = self.record(name)
        for stated in types | {name}:
            for source in self.specs:
                if body := re.search(rf"^{re.escape(stated)} =((?: .*)?(?:\n +.*)*)", source.text, re.M):
                    found |= self.record(body[1].split("→")[-1].split()[0])
        return found

    def exports(self, crate):
        """What a crate's library has for its callers, with where each comes from."""
        found = {}
        for source in self.under(CRATES / crate / "src/lib.rt"):
            found.update(dict.fromkeys(source.functions, crate), **source.handed_on)
        return found

    def parameters(self, crate, function):
        """The parameters of a public function of the crate, or of one that it hands on; None where there is none."""
        for source in self.under(CRATES / crate / "src"):
            if function in source.functions:
                return source.functions[function]
        origin = self.exports(crate).get(function)
        return self.parameters(origin, function) if origin in self.crates - {crate} else None
