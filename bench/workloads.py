"""What is measured: each workload has a grammar, a text for each size, and where they can be told the document and the number of
descriptors that the text must have."""

from dataclasses import dataclass
from typing import Callable, Optional

from grammars import (
    Call, Category, any_of, drop, drop_any_of, group, hidden, ixml, maybe, none_of, plus, rule, show, star,
)


@dataclass(frozen=True)
class Workload:
    """Texts and documents come in pieces, so that none of them stands whole in memory. The sizes grow to the largest by
    doubling."""

    name: str
    rules: list
    text: Callable
    largest: dict
    document: Optional[Callable] = None
    descriptors: Optional[Callable] = None
    doublings: int = 2
    ambiguous: bool = False

    def sizes(self, scale):
        return [self.largest[scale] >> steps for steps in range(self.doublings, -1, -1)]


def digits(count):
    """How many digits the numbers from 1 to the count have together."""
    return sum(len(str(number)) for number in range(1, count + 1))


def scales(large):
    return {"small": large // 100, "middle": large // 10, "large": large}


DIGIT = any_of(("0", "9"))

# Dates, one a line.

DATES = [
    rule("dates", [star("date")]),
    rule("date", ["year", drop("-"), "month", drop("-"), "day", drop("\n")]),
    rule("year", ["digit", "digit", "digit", "digit"]),
    rule("month", ["digit", "digit"]),
    rule("day", ["digit", "digit"]),
    hidden("digit", [DIGIT]),
]


def dates(size):
    return ((f"{1000 + number % 9000}", f"{number % 12 + 1:02}", f"{number % 28 + 1:02}") for number in range(size))


def dates_text(size):
    return ("-".join(date) + "\n" for date in dates(size))


def dates_document(size):
    yield "<dates>"
    for year, month, day in dates(size):
        yield f"<date><year>{year}</year><month>{month}</month><day>{day}</day></date>"
    yield "</dates>\n"


def dates_descriptors(size):
    """A line has 7 dots of `date`, 5 of `year`, 3 each of `month` and `day`, 2 of each of 8 digits, and where it ends one each of
    `dates` and of the star, and two of its list. 5 stand at the front, where the star may also be absent, which gives one of
    `dates`; at the end `date`, `year` and `digit` are called once more for nothing."""
    return (7 + 5 + 3 + 3 + 2 * 8 + 4) * size + 5 + 1 + 3


# Rows of plain and quoted fields.

CSV = [
    rule("table", [star("row")]),
    rule("row", [plus("field", drop(",")), drop("\n")]),
    rule("field", [star(none_of('",', "\n"))], [drop('"'), star("character"), drop('"')]),
    hidden("character", [none_of('"')], [show('"'), drop('"')]),
]


def csv_text(size):
    return (f'{number},"Tea, ""green"" & <mild>",,3.50\n' for number in range(1, size + 1))


def csv_document(size):
    yield "<table>"
    for number in range(1, size + 1):
        yield (
            f'<row><field>{number}</field><field>Tea, "green" &amp; &lt;mild&gt;</field><field/>'
            "<field>3.50</field></row>"
        )
    yield "</table>\n"


def csv_descriptors(size):
    """Linear in the rows and their digits; `bench/check` compares it with closure.py."""
    return 249 * size + 7 * digits(size) + 19


# The log of `ixml sample`: its grammar, its text, and its figures (README.md).

LOG = [
    rule("log", [star("line")]),
    rule("line", [Call("n", "@"), drop(":"), "w", drop("\n")]),
    rule("n", [plus(DIGIT)]),
    rule("w", [plus(any_of(("a", "z")))]),
]


def log_text(size):
    return (f"{number}:ab\n" for number in range(1, size + 1))


def log_document(size):
    yield "<log>"
    yield from (f'<line n="{number}"><w>ab</w></line>' for number in range(1, size + 1))
    yield "</log>\n"


def log_descriptors(size):
    """As `ixml sample` tells it: `bench/check` compares the two."""
    return 21 * size + 4 * digits(size) + 10


# Left recursion, a tree as deep as the text is long.

LEFT = [rule("S", ["S", show("a")], [])]


def left_text(size):
    return ("a" for _ in range(size))


def left_document(size):
    yield from ("<S>" for _ in range(size))
    yield "<S/>"
    yield from ("a</S>" for _ in range(size))
    yield "\n"


def left_descriptors(size):
    """`S` is called at 0 alone. There stand the dots before `S` and in the empty alternative; the dot behind `S` is at every
    position and the one behind `a` at every position but 0."""
    return 2 + (size + 1) + size


# Records of JSON. Escapes stay as they are written.

JSON = [
    rule("json", ["space", "value", "space"]),
    hidden("value", ["object"], ["array"], ["string"], ["number"], ["literal"]),
    rule("object", [drop("{"), "space", star("member", group([drop(","), "space"])), drop("}")]),
    rule("member", [Call("key", "@"), "space", drop(":"), "space", "value", "space"]),
    rule("key", [drop('"'), star("character"), drop('"')]),
    rule("array", [drop("["), "space", star("item", group([drop(","), "space"])), drop("]")]),
    rule("item", ["value", "space"]),
    rule("string", [drop('"'), star("character"), drop('"')]),
    hidden("character", [none_of('"\\', ("\x00", "\x1f"))], [show("\\"), "escape"]),
    hidden("escape", [any_of('"\\/bfnrt')], [show("u"), "hex", "hex", "hex", "hex"]),
    hidden("hex", [any_of(("0", "9"), ("a", "f"), ("A", "F"))]),
    rule("number", [maybe(show("-")), "whole", maybe("fraction"), maybe("exponent")]),
    hidden("whole", [show("0")], [any_of(("1", "9")), star(DIGIT)]),
    hidden("fraction", [show("."), plus(DIGIT)]),
    hidden("exponent", [any_of("eE"), maybe(any_of("+-")), plus(DIGIT)]),
    rule("literal", [show("true")], [show("false")], [show("null")]),
    hidden("space", [star(drop_any_of(" ", "\t", "\n", "\r"))]),
]


def json_text(size):
    yield "["
    for number in range(1, size + 1):
        yield (
            ("" if number == 1 else ",\n")
            + f'{{"id": {number}, "name": "Zoë & 東京 <🍵>", "a \\"note\\"": "one\\ntwo \\u00e9", "price": -12.50E+3,'
            + ' "tags": ["ü", true, false, null, []], "place": {"x": 0, "y": 1e9}}'
        )
    yield "]\n"


def json_document(size):
    yield "<json><array>"
    for number in range(1, size + 1):
        yield (
            f'<item><object><member key="id"><number>{number}</number></member>'
            '<member key="name"><string>Zoë &amp; 東京 &lt;🍵&gt;</string></member>'
            '<member key="a \\&quot;note\\&quot;"><string>one\\ntwo \\u00e9</string></member>'
            '<member key="price"><number>-12.50E+3</number></member><member key="tags"><array>'
            "<item><string>ü</string></item><item><literal>true</literal></item><item><literal>false</literal></item>"
            "<item><literal>null</literal></item><item><array/></item></array></member>"
            '<member key="place"><object><member key="x"><number>0</number></member>'
            '<member key="y"><number>1e9</number></member></object></member></object></item>'
        )
    yield "</array></json>\n"


def json_descriptors(size):
    """Linear in the records and their digits; `bench/check` compares it with closure.py."""
    return 1757 * size + 27 * digits(size) + 20


# The grammar of Invisible XML 1.0, on itself under new names.

OPTIONAL_MARK = maybe(group(["mark", "s"]))
OPTIONAL_TMARK = maybe(group(["tmark", "s"]))
IXML = [
    rule("ixml", ["s", maybe("prolog"), plus("rule", "RS"), "s"]),
    hidden("s", [star(group(["whitespace"], ["comment"]))]),
    hidden("RS", [plus(group(["whitespace"], ["comment"]))]),
    hidden("whitespace", [drop_any_of(Category("Zs"))], ["tab"], ["lf"], ["cr"]),
    hidden("tab", [drop("\t")]),
    hidden("lf", [drop("\n")]),
    hidden("cr", [drop("\r")]),
    rule("comment", [drop("{"), star(group(["cchar"], ["comment"])), drop("}")]),
    hidden("cchar", [none_of("{}")]),
    rule("prolog", ["version", "s"]),
    rule("version", [drop("ixml"), "RS", drop("version"), "RS", "string", "s", drop(".")]),
    rule("rule", [OPTIONAL_MARK, "name", "s", drop_any_of("=:"), "s", Call("alts", "-"), drop(".")]),
    rule("mark", [any_of("@^-")], mark="@"),
    rule("alts", [plus("alt", group([drop_any_of(";|"), "s"]))]),
    rule("alt", [star("term", group([drop(","), "s"]))]),
    hidden("term", ["factor"], ["option"], ["repeat0"], ["repeat1"]),
    hidden("factor", ["terminal"], ["nonterminal"], ["insertion"], [drop("("), "s", "alts", drop(")"), "s"]),
    rule("repeat0", ["factor", group([drop("*"), "s"], [drop("**"), "s", "sep"])]),
    rule("repeat1", ["factor", group([drop("+"), "s"], [drop("++"), "s", "sep"])]),
    rule("option", ["factor", drop("?"), "s"]),
    rule("sep", ["factor"]),
    rule("nonterminal", [OPTIONAL_MARK, "name", "s"]),
    rule("name", ["namestart", star("namefollower")], mark="@"),
    hidden("namestart", [any_of("_", Category("L"))]),
    hidden("namefollower", ["namestart"], [any_of("-.·‿⁀", Category("Nd"), Category("Mn"))]),
    hidden("terminal", ["literal"], ["charset"]),
    rule("literal", ["quoted"], ["encoded"]),
    hidden("quoted", [OPTIONAL_TMARK, "string", "s"]),
    rule("tmark", [any_of("^-")], mark="@"),
    rule(
        "string", [drop('"'), star("dchar"), drop('"')], [drop("'"), star("schar"), drop("'")], mark="@"
    ),
    hidden("dchar", [none_of('"', "\n", "\r")], [show('"'), drop('"')]),
    hidden("schar", [none_of("'", "\n", "\r")], [show("'"), drop("'")]),
    hidden("encoded", [OPTIONAL_TMARK, drop("#"), "hex", "s"]),
    rule("hex", [plus(any_of(("0", "9"), ("a", "f"), ("A", "F")))], mark="@"),
    hidden("charset", ["inclusion"], ["exclusion"]),
    rule("inclusion", [OPTIONAL_TMARK, "set"]),
    rule("exclusion", [OPTIONAL_TMARK, drop("~"), "s", "set"]),
    hidden("set", [drop("["), "s", star(group(["member", "s"]), group([drop_any_of(";|"), "s"])), drop("]"), "s"]),
    rule("member", ["string"], [drop("#"), "hex"], ["range"], ["class"]),
    hidden("range", ["from", "s", drop("-"), "s", "to"]),
    rule("from", ["character"], mark="@"),
    rule("to", ["character"], mark="@"),
    hidden(
        "character", [drop('"'), "dchar", drop('"')], [drop("'"), "schar", drop("'")], [show("#"), "hex"]
    ),
    hidden("class", ["code"]),
    rule("code", ["capital", maybe("letter")], mark="@"),
    hidden("capital", [any_of(("A", "Z"))]),
    hidden("letter", [any_of(("a", "z"))]),
    rule("insertion", [drop("+"), "s", group(["string"], [drop("#"), "hex"]), "s"]),
]


def ixml_text(size):
    yield ixml(IXML)
    for number in range(2, size + 1):
        yield f"{{copy {number}}}\n" + ixml(IXML, f"-{number}")


def ixml_descriptors(size):
    """The first copy, then linear in the copies and their digits; `bench/check` compares it with closure.py."""
    return 65212 + 71352 * (size - 1) + 6024 * (digits(size) - 1)


# Sums that can be read in many ways.

SUMS = [rule("E", ["E", show("+"), "E"], [show("1")])]


def sums_text(size):
    yield "1"
    yield from ("+1" for _ in range(size - 1))


def sums_descriptors(size):
    """`E` is called before each `1`. Where m ones are left, the dots before `E` and around `1` stand three times, the dot behind the
    first `E` at the m ends of `E`, and those behind `+` and the second `E` at m - 1 each: 3m + 1, for m from 1 to the size."""
    return 3 * size * (size + 1) // 2 + size


WORKLOADS = [
    Workload("dates", DATES, dates_text, scales(100_000), dates_document, dates_descriptors),
    Workload("csv", CSV, csv_text, scales(20_000), csv_document, csv_descriptors),
    Workload("log", LOG, log_text, scales(100_000), log_document, log_descriptors),
    Workload("left", LEFT, left_text, scales(1_000_000), left_document, left_descriptors),
    Workload("json", JSON, json_text, scales(4_000), json_document, json_descriptors),
    Workload(
        "ixml", IXML, ixml_text, {"small": 8, "middle": 16, "large": 128}, descriptors=ixml_descriptors,
    ),
    Workload(
        "sums", SUMS, sums_text, {"small": 200, "middle": 400, "large": 400}, descriptors=sums_descriptors, doublings=3,
        ambiguous=True,
    ),
]
