"""The documents of `hessian show --json`, made independently: that of a message, as crates/vectors/hessian_format.py
reads it; and the record that a document is.
"""
import base64
import struct

from subcommand import hessian_format, numbered_rows, samples, shortest_form

KINDS = ["null", "false", "true", "int", "long", "double", "date", "text", "bytes", "list", "typed list", "map",
         "typed map", "object", "reference"]
PARTS = {"list": "elements", "typed list": "elements", "map": "pairs", "typed map": "pairs", "object": "fields"}


class Reading:
    """The document of a message, by rows and contents that hessian_format reads."""

    def __init__(self, message, thousandths=False):
        self.message, self.rows, self.thousandths = message, numbered_rows(message, thousandths), thousandths
        kinds = [row[0] for row in self.rows]
        self.holders = [i for i, kind in enumerate(kinds) if hessian_format.LIST <= kind <= hessian_format.OBJECT]
        self.classes = [i for i, kind in enumerate(kinds) if kind == hessian_format.CLASS]
        self.types = [i for i, kind in enumerate(kinds) if kind == hessian_format.TYPE_NAME]

    def content(self, i):
        kind, place = self.rows[i][:2]
        sort = kind if kind == hessian_format.BYTES else hessian_format.TEXT
        return hessian_format.string_at(self.message, place, sort)[0]

    def name(self, i):
        return self.content(i).decode()

    def class_(self, i):
        fields = [{"name": self.name(k), "place": self.rows[k][1]} for k in range(i + 2, self.rows[i][4])]
        return {"number": self.classes.index(i), "name": self.name(i + 1), "place": self.rows[i][1], "fields": fields}

    def single(self, i):
        """The members of a value that holds none, beside kind and place."""
        kind, _, first, _, _ = self.rows[i]
        number = hessian_format.from_word(first)
        if kind == hessian_format.BYTES:
            return {"length": first, "value": base64.b64encode(self.content(i)).decode()}
        if kind == hessian_format.DOUBLE:
            return {"value": worth(first), "bits": f"{first:016x}"}
        if kind == hessian_format.DATE:
            return {"milliseconds": str(number)}
        if kind == hessian_format.TEXT:
            return {"value": self.name(i)}
        return {"value": {"null": None, "false": False, "true": True, "long": str(number)}.get(KINDS[kind], number)}

    def held(self, i, kind):
        """The members of a list, map or object."""
        _, _, first, second, after = self.rows[i]
        members, at, values = {"reference": self.holders.index(i)}, i + 1, []
        if kind == "object":
            members["class"] = {"number": first, "name": self.name(self.classes[first] + 1)}
        elif kind.startswith("typed"):
            written_out = self.rows[at][0] == hessian_format.TYPE_NAME
            members["type"] = {"number": second, "name": self.name(self.types[second]), "written_out": written_out,
                               "place": self.rows[at][1]}
            at += 1
        while at < after:
            value, at = self.value(at)
            values.append(value)
        members["length"] = second if kind == "object" else first
        if kind == "object":
            names = range(self.classes[first] + 2, self.rows[self.classes[first]][4])
            values = [{"name": self.name(k), "value": value} for k, value in zip(names, values)]
        elif kind.endswith("map"):
            values = [{"key": key, "value": value} for key, value in zip(values[::2], values[1::2])]
        return {**members, PARTS[kind]: values}

    def value(self, i):
        """A value with the definitions before it, and the row after it."""
        defines = []
        while self.rows[i][0] == hessian_format.CLASS:
            defines.append(self.class_(i))
            i = self.rows[i][4]
        kind = KINDS[self.rows[i][0]]
        members = {"kind": kind, "place": self.rows[i][1], **(self.held(i, kind) if kind in PARTS else self.single(i))}
        return {**({"defines": defines} if defines else {}), **members}, self.rows[i][4]

    def document(self, name):
        return {"state": "accepted", "name": name, "bytes": len(self.message), "rows": len(self.rows),
                "shortest": len(shortest_form(self.message, self.rows)), "record": self.value(0)[0],
                **({"thousandths": True} if self.thousandths else {})}


def worth(bits):
    """A double by its bits; words for what is no number in JSON."""
    value = struct.unpack(">d", struct.pack(">Q", bits))[0]
    if value != value:
        return "NaN"
    return value if abs(value) != float("inf") else "Infinity" if value > 0 else "-Infinity"


def build(value):
    """The record that a value of a document is, in some spelling."""
    before = b"".join(samples.class_(c["name"], *(f["name"] for f in c["fields"]), text=text_form)
                      for c in value.get("defines", []))
    return before + (build_holder(value) if value["kind"] in PARTS else build_single(value))


def text_form(text):
    return hessian_format.text_form(text.encode())


def build_single(value):
    kind, worth = value["kind"], value.get("value")
    if kind == "double":
        return b"\x44" + bytes.fromhex(value["bits"])
    if kind == "date":
        return samples.date(int(value["milliseconds"]))
    if kind == "bytes":
        return hessian_format.string_form(hessian_format.BYTES, base64.b64decode(worth, validate=True))
    constants = {"null": samples.NULL, "false": samples.FALSE, "true": samples.TRUE}
    if kind in constants:
        return constants[kind]
    if kind == "long":
        return samples.long_(int(worth))
    return {"int": samples.int_, "reference": samples.reference, "text": text_form}[kind](worth)


def build_holder(value):
    kind = value["kind"]
    if kind == "object":
        return b"\x4f" + samples.int_(value["class"]["number"]) + b"".join(build(f["value"]) for f in value["fields"])
    type_ = value.get("type")
    start = {"list": b"\x57", "typed list": b"\x55", "map": b"\x48", "typed map": b"\x4d"}[kind]
    if type_:
        start += text_form(type_["name"]) if type_["written_out"] else samples.int_(type_["number"])
    if kind.endswith("list"):
        return start + b"".join(map(build, value["elements"])) + b"\x5a"
    return start + b"".join(build(pair["key"]) + build(pair["value"]) for pair in value["pairs"]) + b"\x5a"


def shortest(message, thousandths=False):
    """The shortest form of a record, by the main rule."""
    return shortest_form(message, numbered_rows(message, thousandths))


def without_dates(value):
    """A document without the dates in words, which check_dates looks at."""
    if isinstance(value, dict):
        return {k: without_dates(v) for k, v in value.items() if not (k == "value" and value.get("kind") == "date")}
    return [without_dates(v) for v in value] if isinstance(value, list) else value
