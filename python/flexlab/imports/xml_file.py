"""An XML file as a stream: what is kept of it as elements with their lines and bytes, and limits against files that mean harm.

Both formats have no document type, so one is refused before anything of it is read. All but the elements that are wanted is passed
over, so memory is that of a file's FlexRay part, whatever its size.
"""
import codecs
import hashlib
from collections.abc import Iterator
from xml.parsers import expat

from ..base.ending import FILE, REFUSED, Refused, Stop
from . import names

CHUNK = 262144
DEPTH = 200
PIECE = 8 * 1048576
TEXT = 10000
MOST_KEPT = 1000000
MOST_OMITTED = 200
KEPT_ATTRIBUTES = ("ID", "ID-REF", "DEST", "BASE")


class Source:
    """A file that is imported: what it is, and its SHA-256."""
    path = form = version = encoding = sha256 = ""


class Element:
    """An element that is kept: its text has its bytes in the file, where it is one plain piece."""
    __slots__ = ("name", "file", "line", "parent", "children", "attributes", "text", "start", "end", "package", "omitted", "kind")

    def __init__(self, name: str, file: Source, line: int, parent: "Element | None"):
        self.name, self.file, self.line, self.parent = name, file, line, parent
        self.children: list[Element] = []
        self.attributes: dict[str, str] = {}
        self.text, self.start, self.end = "", -1, -1
        self.package: Package | None = None
        self.omitted: set[str] = set()
        self.kind = ""

    def all(self, path: str) -> Iterator["Element"]:
        """The elements at a path of names below this one; | stands between spellings of the path."""
        for spelling in names.spellings(path):
            found = [self]
            for name in spelling.split("/"):
                found = [child for element in found for child in element.children if child.name == name]
            if found:
                yield from found
                return

    def find(self, path: str) -> "Element | None":
        """The only element at a path, or None; several are refused."""
        found = list(self.all(path))
        if len(found) > 1:
            raise self.refused(f"it has several {found[0].plain}, in lines {found[0].line} and {found[1].line}, and one is wanted")
        return found[0] if found else None

    @property
    def plain(self) -> str:
        """The name as the file has it, without a prefix."""
        return self.name.split(":")[-1]

    @property
    def place(self) -> str:
        return f"{self.file.path}:{self.line}"

    def short_name(self) -> str:
        found = next((child for child in self.children if child.name in ("SHORT-NAME", "ho:SHORT-NAME")), None)
        return found.text.strip() if found else ""

    def path(self) -> str:
        """The path of short names, as references of AUTOSAR have it."""
        above = self.parent.path() if self.parent else self.package.path() if self.package else ""
        name = self.short_name()
        return f"{above}/{name}" if name else above

    def refused(self, why: str) -> Refused:
        return Refused(self.file.path, self.line, f"{self.plain}: {why}")


class Package:
    """A package of AUTOSAR on the way to an element."""
    __slots__ = ("name", "parent")

    def __init__(self, parent: "Package | None"):
        self.name, self.parent = "", parent

    def path(self) -> str:
        return (self.parent.path() if self.parent else "") + f"/{self.name}"


def printable(text: str, most: int = 128) -> str:
    """A text of a file as a line of flexlab may have it: printable letters alone, and not too many."""
    kept = "".join(letter for letter in text[:4 * most] if letter.isprintable()).strip()
    return kept if len(kept) <= most else kept[:most - 2] + ".."


class XmlFile(Source):
    """Reads a file of one of both formats: `form`, `version`, and the kept elements as `roots`."""

    def __init__(self, path: str, renamed: dict[str, dict[str, str]]):
        self.path, self.renamed = path, renamed
        self.form, self.version, self.encoding = "", "", ""
        self.roots: list[Element] = []
        self.channel_ids: set[str] = set()
        self.kept = self.depth = self.skipped = 0
        self.sha256 = ""
        self.spaces: dict[str, list[str]] = {}
        self.wanted: set[str] = set()
        self.open: list[Element] = []
        self.outside: list[str] = []
        self.packages: list[Package] = []
        self.named: Package | None = None
        self.pieces: list[str] = []
        self.letters = 0
        self.begun = -1
        self.broken = False
        self.parser = expat.ParserCreate(namespace_separator=" ")
        self.parser.buffer_text = False
        self.parser.StartElementHandler = self.start
        self.parser.EndElementHandler = self.finish
        self.parser.CharacterDataHandler = self.data
        self.parser.StartNamespaceDeclHandler = self.space
        self.parser.EndNamespaceDeclHandler = self.no_space
        self.parser.StartDoctypeDeclHandler = self.doctype
        self.parser.CommentHandler = self.interrupted
        self.parser.StartCdataSectionHandler = lambda: self.interrupted("")
        self.read()

    # ---- the stream

    def read(self) -> None:
        digest, fed, seen = hashlib.sha256(), 0, 0
        try:
            with open(self.path, "rb") as file:
                while chunk := file.read(CHUNK):
                    if not fed:
                        self.encoding = encoding_of(chunk)
                    digest.update(chunk)
                    fed += len(chunk)
                    self.parser.Parse(chunk, False)
                    seen = max(seen, self.parser.CurrentByteIndex)
                    if fed - seen > PIECE:
                        raise self.refused(f"a tag, a comment or a text of more than {PIECE // 1048576} MiB begins here: no FIBEX or "
                                           "ARXML file has such")
                self.parser.Parse(b"", True)
        except OSError as fault:
            raise Stop(FILE, f"{self.path}: {fault.strerror}")
        except expat.ExpatError as fault:
            raise Refused(self.path, fault.lineno, f"it is no XML: {expat.ErrorString(fault.code)}")
        except (UnicodeError, LookupError, ValueError) as fault:
            raise Stop(REFUSED, f"{self.path}: it is no XML that can be read: {printable(str(fault))}")
        self.sha256 = digest.hexdigest()

    def refused(self, why: str) -> Refused:
        return Refused(self.path, self.parser.CurrentLineNumber, why)

    def doctype(self, *_: object) -> None:
        raise self.refused("it has a document type (DOCTYPE), which FIBEX and ARXML files have not: nothing of it is read")

    def space(self, prefix: str | None, uri: str | None) -> None:
        self.spaces.setdefault(prefix or "", []).append(uri or "")

    def no_space(self, prefix: str | None) -> None:
        self.spaces[prefix or ""].pop()

    def of_flexray(self, told: str | None) -> bool:
        """Whether a type (xsi:type) is one of FIBEX's FlexRay name space."""
        prefix, _, _ = (told or "").strip().rpartition(":")
        known = self.spaces.get(prefix, [])
        return bool(told) and bool(known) and names.FIBEX_SPACES.get(known[-1]) == "fr:"

    def name_of(self, told: str) -> str:
        space, _, local = told.rpartition(" ")
        if self.form == "ARXML":
            return local if space.startswith(names.AUTOSAR_SPACE) else f"?:{local}"
        return names.FIBEX_SPACES.get(space, "?:") + local

    def begin(self, told: str, attributes: dict[str, str]) -> None:
        """The outermost element, which says what the file is."""
        space, _, local = told.rpartition(" ")
        if local == "AUTOSAR" and space.startswith(names.AUTOSAR_SPACE):
            schema = attributes.get(f"{names.SCHEMA_INSTANCE} schemaLocation", "").split()
            self.form, self.version = "ARXML", printable(schema[-1] if schema else space.rsplit("/", 1)[-1], 64)
        elif local == "FIBEX" and names.FIBEX_SPACES.get(space) == "":
            self.form, self.version = "FIBEX", printable(attributes.get("VERSION", "without a version"), 64)
        else:
            raise self.refused(f"it is neither FIBEX nor ARXML: its outermost element is {printable(local, 64)}"
                               + (f" of the name space {printable(space, 64)}" if space else ", without a name space"))
        self.wanted = names.wanted(self.form, self.renamed.get(self.form.lower(), {}))

    def start(self, told: str, attributes: dict[str, str]) -> None:
        self.depth += 1
        if self.depth > DEPTH:
            raise self.refused(f"elements lie in more than {DEPTH} others: no FIBEX or ARXML file has such")
        if self.skipped:
            self.skipped += 1
            return
        if not self.form:
            self.begin(told, attributes)
            self.outside.append(self.name_of(told))
            return
        name = self.name_of(told)
        if self.open:
            parent = self.open[-1]
            if name not in self.wanted:
                if len(parent.omitted) < MOST_OMITTED:
                    parent.omitted.add(printable(name.split(":")[-1], 64))
                self.skipped = 1
                self.interrupted("")
                if not "".join(self.pieces).strip():
                    self.pieces, self.letters = [], 0
                return
            self.keep(name, parent, attributes)
        elif names.ROOTS[self.form].get(name) == self.outside[-1]:
            self.keep(name, None, attributes)
        elif self.form == "FIBEX" and self.depth >= 4:
            self.skipped = 1
        else:
            if name == "AR-PACKAGE":
                self.packages.append(Package(self.packages[-1] if self.packages else None))
            self.named = self.packages[-1] if name == "SHORT-NAME" and self.outside[-1] == "AR-PACKAGE" else None
            # Elements of a package that are none of the wanted ones are passed over whole.
            if self.outside[-1] == "ELEMENTS" and self.form == "ARXML":
                self.skipped = 1
                return
            self.outside.append(name)
            self.pieces, self.letters = [], 0

    def keep(self, name: str, parent: Element | None, attributes: dict[str, str]) -> None:
        self.kept += 1
        if self.kept > MOST_KEPT:
            raise self.refused(f"it has more than {MOST_KEPT} elements of clusters, ECUs and frames")
        element = Element(name, self, self.parser.CurrentLineNumber, parent)
        for key in KEPT_ATTRIBUTES:
            if key in attributes:
                element.attributes[key] = attributes[key][:TEXT]
        if self.of_flexray(attributes.get(f"{names.SCHEMA_INSTANCE} type")):
            element.kind = "flexray"
        if parent is None:
            element.package = self.packages[-1] if self.packages else None
        else:
            parent.children.append(element)
        self.open.append(element)
        self.pieces, self.letters, self.begun, self.broken = [], 0, -1, False

    def data(self, text: str) -> None:
        if self.skipped or not (self.open or self.named):
            return
        if self.begun < 0:
            self.begun = self.parser.CurrentByteIndex
        self.pieces.append(text)
        self.letters += len(text)
        if self.letters > TEXT:
            raise self.refused(f"a text of more than {TEXT} letters: no number or name has so many")

    def interrupted(self, _: str) -> None:
        """A comment, a section or an element within a text: it is then no plain piece, into which another number could be put."""
        self.broken = True

    def finish(self, _: str) -> None:
        self.depth -= 1
        if self.skipped:
            self.skipped -= 1
            return
        if not self.open:
            name = self.outside.pop()
            if self.named is not None and name == "SHORT-NAME":
                self.named.name, self.named = printable("".join(self.pieces)), None
            if name == "AR-PACKAGE":
                self.packages.pop()
            return
        element = self.open.pop()
        if not element.children:
            element.text = "".join(self.pieces)
            if not self.broken and self.begun >= 0:
                element.start, element.end = self.begun, self.parser.CurrentByteIndex
        self.pieces, self.letters, self.begun, self.broken = [], 0, -1, True
        if not self.open:
            self.closed(element)

    def closed(self, root: Element) -> None:
        """A root that ends: it is dropped where it has nothing of FlexRay."""
        if root.name == "CHANNEL":
            self.channel_ids.add(root.attributes.get("ID", ""))
            if not root.find(names.FIBEX["channel_name"]):
                return
        if root.name == "CLUSTER" and not is_flexray(root):
            return
        if root.name == "ECU-INSTANCE" and not (any(root.all(names.ARXML["controllers"])) or any(root.all(names.ARXML["connectors"]))):
            return
        self.roots.append(root)


def is_flexray(element: Element) -> bool:
    """Whether a cluster or a controller of FIBEX is one of FlexRay."""
    return element.kind == "flexray" or any(child.name.startswith("fr:") for child in element.children)


def encoding_of(head: bytes) -> str:
    """The encoding in which digits are put into a file: two bytes a letter where its first bytes say so."""
    if head.startswith(codecs.BOM_UTF16_LE) or head[:2] == b"<\0":
        return "utf-16-le"
    if head.startswith(codecs.BOM_UTF16_BE) or head[:2] == b"\0<":
        return "utf-16-be"
    return "ascii"
