"""Grammars as data, and how they are written as ixml."""

import unicodedata
from dataclasses import dataclass


@dataclass(frozen=True)
class Literal:
    text: str
    deleted: bool = False


@dataclass(frozen=True)
class Category:
    code: str


@dataclass(frozen=True)
class Set:
    """One character. A member is a string of characters, a pair of the first and last of a range, or a `Category`."""

    members: tuple
    exclude: bool = False
    deleted: bool = False

    def has(self, character):
        return self.exclude != any(is_member(character, member) for member in self.members)


@dataclass(frozen=True)
class Call:
    name: str
    mark: str = ""


@dataclass(frozen=True)
class Group:
    alternatives: tuple


@dataclass(frozen=True)
class Repeat:
    """The sign is `?`, `*` or `+`; only the last two may have a separator."""

    item: object
    sign: str
    separator: object = None


@dataclass(frozen=True)
class Rule:
    name: str
    alternatives: tuple
    mark: str = ""


def is_member(character, member):
    if isinstance(member, Category):
        return unicodedata.category(character).startswith(member.code)
    if isinstance(member, tuple):
        return member[0] <= character <= member[1]
    return character in member


# Short words to write grammars with. Where a term is wanted, a string is a call of that rule.


def term(value):
    return Call(value) if isinstance(value, str) else value


def sequences(alternatives):
    return tuple(tuple(term(value) for value in alternative) for alternative in alternatives)


def rule(name, *alternatives, mark=""):
    return Rule(name, sequences(alternatives), mark)


def hidden(name, *alternatives):
    return rule(name, *alternatives, mark="-")


def group(*alternatives):
    return Group(sequences(alternatives))


def show(text):
    return Literal(text)


def drop(text):
    return Literal(text, deleted=True)


def any_of(*members):
    return Set(members)


def drop_any_of(*members):
    return Set(members, deleted=True)


def none_of(*members):
    return Set(members, exclude=True)


def maybe(item):
    return Repeat(term(item), "?")


def star(item, separator=None):
    return Repeat(term(item), "*", term(separator))


def plus(item, separator=None):
    return Repeat(term(item), "+", term(separator))


# The same as ixml.


def ixml(rules, suffix=""):
    """The grammar's text, one rule a line. The suffix is put behind each name."""
    return "".join(ixml_rule(rule, suffix) + "\n" for rule in rules)


def ixml_rule(rule, suffix):
    return f"{rule.mark}{rule.name}{suffix}: {ixml_alternatives(rule.alternatives, suffix)}."


def ixml_alternatives(alternatives, suffix):
    return "; ".join(", ".join(ixml_term(term, suffix) for term in terms) for terms in alternatives)


def ixml_term(term, suffix):
    if isinstance(term, Literal):
        return "-" * term.deleted + ixml_string(term.text)
    if isinstance(term, Set):
        return "-" * term.deleted + "~" * term.exclude + "[" + "; ".join(map(ixml_member, term.members)) + "]"
    if isinstance(term, Call):
        return term.mark + term.name + suffix
    if isinstance(term, Group):
        return f"({ixml_alternatives(term.alternatives, suffix)})"
    item = ixml_term(term.item, suffix)
    if term.separator is None:
        return item + term.sign
    return item + 2 * term.sign + ixml_term(term.separator, suffix)


def ixml_member(member):
    if isinstance(member, Category):
        return member.code
    if isinstance(member, tuple):
        return "-".join(map(ixml_string, member))
    return ixml_string(member)


def ixml_string(text):
    """A control character has a number, and so stands alone."""
    if len(text) == 1 and not text.isprintable():
        return f"#{ord(text):x}"
    return '"' + text.replace('"', '""') + '"'
