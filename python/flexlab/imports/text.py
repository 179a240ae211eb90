"""The TOML file of an imported cluster: each number with its line in the file that it comes from."""
import json

from .imported import ASKED, Imported, Told, key_of
from .xml_file import Element, printable

HEAD = "                    # "


def lines_of(found: Imported) -> list[str]:
    network = found.network
    several = len(network.files) > 1
    form = network.files[0].version
    lines = [f"# Of {', '.join(name_of(file.path) for file in network.files)} ({network.form} {form}), cluster {network.name}, by flexlab "
             "import."]
    lines += [f"# SHA-256 of {name_of(file.path) if several else 'that file'}: {file.sha256}" for file in network.files]
    lines += [f"# Numbers behind # are {'lines of these files' if several else 'its lines'}."]
    lines += [f"# NOTE {words}" for words in notes_of(found)]

    def put(name: str, told: Told) -> None:
        beside = f"{network.place(told.element)}" if told.element is not None else ""
        lines.append(f"{name} = {told.text}" + (f"    # {beside}" + (": " if beside and told.why else "") + told.why
                                                if beside or told.why else ""))

    lines += ["", "[bench]"]
    for name, told in found.bench.items():
        put(name, told)
    lines += ["", "[cluster]"]
    for name, told in found.parameters.items():
        put(name, told)
    lines += ["", f"[limits]{HEAD}no such file has these: they are promises of the hardware"]
    for name, (_, why) in ASKED.items():
        if name in found.limits:
            put(name, found.limits[name])
        else:
            lines.append(f"# {name} = .." + " " * max(1, 9 - max(0, len(name) - 14)) + f"# {why}")
    lines += ["", "[run]", "double_cycles = 200"]
    for node in found.nodes:
        lines += ["", "[[node]]", f"id = {node.number}", beside_line(f"name = {quoted(node.name)}", found, node.element)]
        if key_of(node) is not None:
            lines.append(beside_line(f"key_slot = {key_of(node)}", found, node.key_slot))
        lines.append(f"channels = \"{''.join(sorted(node.channels))}\"")
        if node.is_startup:
            lines.append("coldstart = true")
    for slot in found.slots:
        lines += ["", "[[slot]]", beside_line(f"slot = {slot.slot}", found, slot.element), f"node = {slot.node.number}",
                  f"base = {slot.base}", f"repetition = {slot.repetition}"]
    return lines


def toml_of(found: Imported) -> str:
    return "\n".join(lines_of(found)) + "\n"


def beside_line(text: str, found: Imported, element: Element | None) -> str:
    return text if element is None else f"{text}    # {found.network.place(element)}"


def notes_of(found: Imported) -> list[str]:
    """The notes, each with its place: what the file says and what was made of it."""
    return [(f"{name_of(element.file.path)}:{element.line}: " if element is not None else "") + printable(words, 400)
            for element, words in found.network.notes]


def name_of(path: str) -> str:
    return printable(path.replace("\\", "/").rpartition("/")[2]) or "the file"


def quoted(text: str) -> str:
    """A text as TOML and JSON have it, with the letters that both take as they are."""
    return json.dumps(text, ensure_ascii=False)
