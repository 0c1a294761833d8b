#!/usr/bin/env python3
"""Writes the records of data/, which `showrecord` shows under the gate (the file args names them).

    python3 crates/showrecord/make_data.py            write data/
    python3 crates/showrecord/make_data.py --lines    print the lines that the accepted records must give

Each field is written together with the line that must be printed for it, so that --lines says what to expect without reading a byte back.
"""
import os
import sys

HERE = os.path.dirname(os.path.abspath(__file__))


class Record:
    """The bytes of a record, and the line of each part: place, depth, text."""

    def __init__(self, mark, words, version=1):
        self.bytes = bytearray(mark) + version.to_bytes(2, "big")
        self.version = version
        self.words = words
        self.lines = []

    def line(self, depth, text):
        self.lines.append((len(self.bytes), depth, text))

    def u8(self, n):
        self.bytes.append(n)

    def u16(self, n):
        self.bytes += n.to_bytes(2, "big")

    def string(self, text):
        self.u8(len(text))
        self.bytes += text.encode("ascii")

    def span(self, start, end):
        self.bytes += start.to_bytes(4, "big") + end.to_bytes(4, "big")

    def named(self, depth, what, text):
        self.line(depth, f"{what}`{text}`")
        self.string(text)

    def strings(self, texts):
        self.u8(len(texts))
        for text in texts:
            self.string(text)

    def listed(self, depth, what, texts):
        self.line(depth, f"{what} ({len(texts)})")
        self.u8(len(texts))
        for text in texts:
            self.named(depth + 1, "", text)

    def text(self):
        n = len(self.bytes)
        lines = [(0, 0, f"{self.words}, version {self.version}, {n} bytes")] + self.lines + [(n, 0, "end")]
        return "".join(f"{at:5} {'  ' * depth}{text}\n" for at, depth, text in lines)


def row(texts):
    return f"({len(texts)})" + "".join(f" `{t}`" for t in texts)


# ---- the schema

TYPES = ["Long", "String", "Bool", "extension", "set", "set without element", "record", "entity", "several entities", "any entity", "Never"]


def declared(r, depth, t, before=""):
    kind, rest = (t, None) if isinstance(t, int) else t
    text = before + TYPES[kind]
    if kind in (3, 7):
        r.line(depth, f"{text} `{rest}`")
    elif kind == 6:
        r.line(depth, f"{text} ({len(rest)})")
    else:
        r.line(depth, text)
    r.u8(kind)
    if kind in (3, 7):
        r.string(rest)
    if kind == 4:
        declared(r, depth + 1, rest)
    if kind == 6:
        attributes(r, depth + 1, rest)


def attributes(r, depth, fields):
    r.u8(len(fields))
    for name, t in fields:
        r.named(depth, "attribute ", name)
        declared(r, depth + 1, t)


def schema(entities, actions):
    r = Record(b"DWS", "schema record")
    r.line(1, f"entity types ({len(entities)})")
    r.u16(len(entities))
    for name, ancestors, fields in entities:
        r.named(2, "entity type ", name)
        r.listed(3, "ancestors", ancestors)
        r.line(3, f"attributes ({len(fields)})")
        attributes(r, 4, fields)
    r.line(1, f"actions ({len(actions)})")
    r.u16(len(actions))
    for type_name, id, principals, resources, context in actions:
        r.named(2, "action of type ", type_name)
        r.named(3, "id ", id)
        r.listed(3, "principals", principals)
        r.listed(3, "resources", resources)
        declared(r, 3, context, "context ")
    return r


# ---- the condition

CONDITIONS = {1: "and", 2: "or", 3: "not", 4: "formerly", 5: "previous", 6: "since", 7: "predicate", 8: "comparison", 9: "exists", 10: "tp", 11: "call", 12: "SigilRef", 13: "refine"}
OPERATORS = ["<=", "<", ">=", ">", "==", "!="]
TERMS = {1: "entity", 2: "integer", 3: "decimal", 4: "string", 5: "boolean", 6: "context field", 7: "scope field", 8: "variable", 9: "wildcard", 10: "array", 11: "aggregate", 12: "arithmetic", 13: "ParamRef", 14: "BinderRef"}
AGGREGATES = {1: "sum", 2: "count", 3: "call"}
UNITS = ["second", "minute", "hour", "day"]
ARITH_OPS = ["+", "-", "*"]


def slot(r, depth, what, s):
    if isinstance(s, str):
        r.line(depth, f"{what} `{s}`")
        r.u8(0)
        r.string(s)
    else:
        r.line(depth, f"{what} {['', 'ParamRef', 'BinderRef'][s]}")
        r.u8(s)


def binder(r, depth, b):
    s, segments = b
    slot(r, depth, "binder", s)
    r.line(depth + 1, "annotation " + (row(segments) if segments else "timepoint"))
    r.strings(segments)


def binders(r, depth, bs):
    r.line(depth, f"binders ({len(bs)})")
    r.u8(len(bs))
    for b in bs:
        binder(r, depth + 1, b)


def windowed(window):
    """The bytes of a window (a unit and an amount, or none for a ParamRef), and its words."""
    if window is None:
        return b"\x01", " within ParamRef"
    unit, amount = window
    words = f" within {amount} {UNITS[unit]}" + ("" if amount == 1 else "s")
    return bytes([0, unit]) + amount.to_bytes(8, "big", signed=True), words


def condition(r, depth, c):
    kind, (start, end), rest, *window = c
    text = CONDITIONS[kind] + (f" {OPERATORS[rest[0]]}" if kind == 8 else "")
    data, words = windowed(*window) if r.version > 1 and kind in (4, 5, 6) else (b"", "")
    r.line(depth, f"{text} span {start}..{end}{words}")
    r.u8(kind)
    r.span(start, end)
    r.bytes += data
    if kind in (1, 2, 6, 3, 4, 5, 13):
        for inner in rest:
            condition(r, depth + 1, inner)
    if kind == 7:
        (s, e), namespace, action, arguments = rest
        r.line(depth + 1, f"own span {s}..{e}")
        r.span(s, e)
        r.listed(depth + 1, "namespace", namespace)
        r.named(depth + 1, "action ", action)
        r.line(depth + 1, f"arguments ({len(arguments)})")
        r.u8(len(arguments))
        for name, field, value in arguments:
            r.named(depth + 2, "argument ", name)
            r.line(depth + 3, "field path " + row(field))
            r.strings(field)
            term(r, depth + 3, value)
    if kind == 8:
        r.u8(rest[0])
        term(r, depth + 1, rest[1])
        term(r, depth + 1, rest[2])
    if kind == 9:
        binder(r, depth + 1, rest[0])
        condition(r, depth + 1, rest[1])
    if kind == 10:
        slot(r, depth + 1, "slot", rest)


def valued(kind, value):
    """The bytes of what version 3 brought to a term of a kind, and its words."""
    if kind == 2:
        return value.to_bytes(8, "big", signed=True), f" {value}"
    if kind == 5:
        return bytes([value]), " true" if value else " false"
    if kind == 12:
        return bytes([value]), f" {ARITH_OPS[value]}"
    return bytes([len(value)]) + value.encode(), f" {value}" if kind == 3 else f" `{value}`"


def term(r, depth, t):
    kind, rest, *value = (t, None) if isinstance(t, int) else t
    text = TERMS[kind]
    if kind in (1, 8):
        text += f" `{rest}`"
    data, words = valued(kind, *value) if r.version > 2 and kind in (1, 2, 3, 4, 5, 12) else (b"", "")
    text += words
    if kind in (6, 7):
        text += " " + row(rest)
    if kind == 10:
        text += f" ({len(rest)})"
    if kind == 11:
        aggregate, (start, end), inner = rest
        text += f" {AGGREGATES[aggregate]} span {start}..{end}"
    r.line(depth, text)
    r.u8(kind)
    if kind in (1, 8):
        r.string(rest)
    r.bytes += data
    if kind in (6, 7):
        r.strings(rest)
    if kind == 10:
        r.u8(len(rest))
        for element in rest:
            term(r, depth + 1, element)
    if kind == 11:
        r.u8(aggregate)
        r.span(start, end)
        if aggregate == 1:
            slot(r, depth + 1, "summand", inner[0])
        if aggregate != 3:
            binders(r, depth + 1, inner[-2])
            condition(r, depth + 1, inner[-1])
    if kind == 12:
        term(r, depth + 1, rest[0])
        term(r, depth + 1, rest[1])


def condition_record(c, version=1):
    r = Record(b"DWC", "condition record", version)
    condition(r, 1, c)
    return r


# ---- targets, and a path

NARROWINGS = ["none", "any", "is type", "uid of type", "uid with membership of type"]


def narrowing(r, side, n):
    kind, name = (n, None) if isinstance(n, int) else n
    r.line(1, f"{side} narrowing {NARROWINGS[kind]}" + (f" `{name}`" if name else ""))
    r.u8(kind)
    if name:
        r.string(name)


def targets(principal, resource, list):
    r = Record(b"DWT", "targets record")
    narrowing(r, "principal", principal)
    narrowing(r, "resource", resource)
    r.line(1, f"targets ({len(list)})")
    r.u8(len(list))
    for i, (namespace, id) in enumerate(list):
        r.line(2, f"target {i} " + (f"namespace `{namespace}`" if namespace else "without namespace"))
        r.string(namespace)
        r.named(3, "id ", id)
    return r


def path(side, segments, position):
    r = Record(b"DWP", "path record")
    r.line(1, f"scope {['principal', 'resource'][side]}")
    r.u8(side)
    r.line(1, "path " + row(segments))
    r.strings(segments)
    r.line(1, f"position of the target {position}")
    r.u8(position)
    return r


# ---- the records that are accepted

def leaf(i):
    return (11 + i % 2, (i, i + 1), None)


ALL_OPERATORS = [
    (8, (20, 29), (0, 2, 3)),
    (8, (30, 39), (1, (12, (2, (12, (9, 13)))), 14)),
    (8, (40, 49), (2, (6, ["input", "year"]), (7, []))),
    (8, (50, 59), (3, (7, ["principal", "born"]), (8, "v"))),
    (8, (60, 69), (4, (10, [2, (10, []), 4]), (1, "Archive::Deed"))),
    (8, (70, 79), (5, (11, (1, (71, 78), ("n", [("n", ["Long"]), (1, ["Archive", "Deed"])], leaf(1)))), (11, (3, (72, 73), None)))),
    (8, (80, 4294967295), (4, (11, (2, (81, 88), ([(2, [])], (10, (82, 83), "t")))), 5)),
]


def joined(cs):
    return cs[0] if len(cs) == 1 else (1, (20, 90), [cs[0], joined(cs[1:])])


EVERY_CONDITION = (2, (0, 200), [
    joined(ALL_OPERATORS),
    (6, (100, 199), [
        (3, (101, 110), [(4, (102, 110), [(5, (103, 110), [(13, (104, 110), [(11, (105, 110), None)])])])]),
        (9, (111, 190), (("t", []), (9, (112, 190), ((2, ["Date"]), (1, (113, 190), [
            (7, (114, 150), ((115, 149), ["Archive", "Old::Action"], "view", [
                ("input.year", ["input", "year"], 2),
                ("who", [], (10, [(1, "Clerk"), 9])),
                ("sum", ["sum"], (11, (1, (120, 130), (1, [], (12, (121, 122), None))))),
            ])),
            (1, (151, 190), [
                (7, (152, 160), ((153, 159), [], "", [])),
                (1, (161, 190), [(10, (162, 163), 1), (1, (164, 190), [(10, (165, 166), 2), (12, (170, 180), None)])]),
            ]),
        ]))))),
    ]),
])

# Windows in each unit, one of it and several, and a parameter: the largest number of seconds, none, and one below an argument.
WINDOWS = (6, (0, 90), [
    (4, (1, 40), [(5, (2, 30), [(3, (3, 30), [leaf(4)])], (1, 90))], (0, 9223372036854775807)),
    (5, (41, 80), [(4, (42, 70), [(7, (43, 60), ((44, 59), [], "view", [
        ("n", [], (11, (2, (45, 50), ([], (4, (46, 49), [leaf(1)], (2, 0)))))),
    ]))], (3, 1))], None),
], (2, 36))

# Values: the least and the largest number, both booleans, each operator, an empty id, and the literals below an array and in an argument.
VALUES = (1, (0, 99), [
    (8, (1, 40), (0, (12, (
        (12, ((2, None, -9223372036854775808), (2, None, 9223372036854775807)), 0),
        (12, ((2, None, -1), (2, None, 0)), 1),
    ), 2), (10, [(3, None, "1.5"), (3, None, "-0.0001"), (5, None, 0), (5, None, 1)]))),
    (4, (41, 90), [(7, (42, 80), ((43, 79), [], "view", [
        ("who", [], (1, "Archive::Clerk", "anna")),
        ("what", [], (1, "Bot", "")),
        ("note", [], (4, None, "in part")),
    ]))], None),
])


def literal(t):
    """A comparison of version 3 between a term and a wildcard."""
    return bytes(condition_record((8, (0, 8), (4, t, 9)), 3).bytes)


ACCEPTED = {
    "schema.dws": schema([], []),
    "cond.dwc": condition_record((8, (0, 8), (1, 5, 2))),
    "targets.dwt": targets(0, 0, [("", "view")]),
    "every.dws": schema(
        [
            ("Archive::Clerk", ["Archive::Staff", "Group"], [("born", 0), ("name", 1), ("retired", 2)]),
            ("Archive::Deed", [], [
                ("", 9),
                ("any", 5),
                ("by", (7, "Archive::Clerk")),
                ("never", 10),
                ("pages", (6, [("first", (6, [])), ("of", (4, (4, (6, [("x y", 0)]))))])),
                ("seal", (3, "decimal")),
                ("years", (4, 0)),
                ("~", 8),
            ]),
            ("Bot", [], []),
        ],
        [
            ("Action", "", [], [], (6, [])),
            ("Archive::Action", "edit", ["Archive::Clerk", "Bot"], ["Archive::Deed"], (6, [("year", 1)])),
            ("Archive::Action", "view", ["Bot"], [], 0),
        ],
    ),
    "every.dwc": condition_record(EVERY_CONDITION),
    "every.dwt": targets((2, "Archive::Clerk"), (4, "Archive::Deed"), [("Archive", "view"), ("", "edit"), ("Archive", "")]),
    "other.dwt": targets(1, (3, "Bot"), []),
    "every.dwp": path(1, ["by", "born", ""], 2),
    "windows.dwc": condition_record(WINDOWS, 2),
    "values.dwc": condition_record(VALUES, 3),
}


# ---- the records that are refused, one for each number

def deep(levels):
    """A condition of so many levels."""
    c = (12, (0, 0), None)
    for _ in range(levels - 1):
        c = (3, (0, 0), [c])
    return condition_record(c)


def refused():
    """Of the larger ones only a part is changed, by its place in the line that it gives."""
    def changed(record, line, offset, byte):
        b = bytearray(record.bytes)
        at = next(at for at, _, text in record.lines if text == line)
        b[at + offset] = byte
        return bytes(b)

    every = ACCEPTED["every.dws"]
    array = condition_record((8, (0, 8), (4, (10, [2, (12, (9, (11, (3, (0, 0), None))))]), 9)))
    return {
        "refused1.dwc": b"DWC\x00\x01" + bytes(32764),
        "refused2.dws": bytes(every.bytes[:100]),
        "refused3.dwx": b"DWX\x00\x01\x00",
        "refused4.dwt": b"DWT\x00\x02\x00\x00\x00",
        "refused5.dwc": changed(condition_record(EVERY_CONDITION), "comparison == span 60..69", 9, 6),
        "refused6.dws": changed(every, "attribute `name`", 2, ord("'")),
        "refused7.dwc": bytes(deep(33).bytes),
        "refused8.dws": changed(every, "id `view`", 1, ord("a")),
        "refused9.dwc": bytes(array.bytes),
        "refused10.dwp": bytes(ACCEPTED["every.dwp"].bytes) + b"\x00\x07",
        "refused13.dwc": bytes(condition_record((4, (0, 8), [leaf(0)], (0, -1)), 2).bytes),
        "refused15.dwc": literal((3, None, "1.00000")),
        "refused16.dwc": literal((3, None, "922337203685477.5808")),
        "empty": b"",
    }


def main():
    if sys.argv[1:] == ["--lines"]:
        for name, record in ACCEPTED.items():
            print(name)
            print(record.text(), end="")
        return
    for name, data in [(n, bytes(r.bytes)) for n, r in ACCEPTED.items()] + list(refused().items()):
        with open(os.path.join(HERE, "data", name), "wb") as f:
            f.write(data)


main()
