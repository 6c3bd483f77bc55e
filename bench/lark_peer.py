#!/usr/bin/env python3
"""Reads a text by a plain grammar with lark's Earley parser, character by character, and writes the document of the tree that
lark gives: lark_peer.py GRAMMAR TEXT."""

import json
import os
import sys

from lark import Lark, Token
from lark.lexer import Lexer

CONTENT = {"&": "&amp;", "<": "&lt;", ">": "&gt;", "\r": "&#xD;"}
VALUE = {"&": "&amp;", "<": "&lt;", '"': "&quot;", "\t": "&#x9;", "\n": "&#xA;", "\r": "&#xD;"}


def lexer(classes):
    """A lexer that takes each character for a token: no regular expressions, and not lark's dynamic lexer."""

    class Characters(Lexer):
        def __init__(self, _):
            pass

        def lex(self, text):
            return (Token(classes[character], character) for character in text)

    return Characters


def grammar(plain):
    """The grammar as lark reads it. Each alternative has an alias, by which its tree is told."""
    alternatives = {}
    for number, (left, right, _) in enumerate(plain["productions"]):
        alternatives.setdefault(left, []).append(" ".join([*right, "->", f"a{number}"]))
    tokens = " ".join(sorted(set(plain["classes"].values())))
    rules = (f"{left}: " + "\n    | ".join(lines) for left, lines in alternatives.items())
    return f"%declare {tokens}\n" + "\n".join(rules) + "\n"


class Document:
    """Goes over a tree with a list of what is to be done; `None` closes what was opened last. The front of an element is written
    when it closes, since its attributes may come late."""

    def __init__(self, plain):
        self.productions = plain["productions"]
        self.symbols = plain["symbols"]
        self.out = []
        self.open = []
        self.value = None

    def write(self, root):
        todo = [root]
        while todo:
            node = todo.pop()
            if node is None:
                self.close()
            elif isinstance(node, str):
                self.character(node)
            else:
                todo.extend(self.enter(node))
        return "".join(self.out) + "\n"

    def character(self, character):
        if self.value is None:
            self.out.append(CONTENT.get(character, character))
        else:
            self.value += VALUE.get(character, character)

    def enter(self, node):
        """The parts of a node that are shown, the last one first, behind what closes it."""
        left, _, shown = self.productions[int(node.data[1:])]
        kind, name = self.symbols[left]
        parts = [part for part, is_shown in zip(node.children, shown) if is_shown]
        # Within an attribute text alone counts.
        if kind == "hidden" or self.value is not None:
            return reversed(parts)
        self.open.append([name, len(self.out), ""])
        if kind == "attribute":
            self.value = ""
        else:
            self.out.append("")
        return [None, *reversed(parts)]

    def close(self):
        name, place, attributes = self.open.pop()
        if self.value is not None:
            self.open[-1][2] += f' {name}="{self.value}"'
            self.value = None
        elif place == len(self.out) - 1:
            self.out[place] = f"<{name}{attributes}/>"
        else:
            self.out[place] = f"<{name}{attributes}>"
            self.out.append(f"</{name}>")


def contents(name):
    with open(name, encoding="utf-8", newline="") as file:
        return file.read()


def main():
    plain = json.loads(contents(sys.argv[1]))
    parser = Lark(
        grammar(plain), parser="earley", lexer=lexer(plain["classes"]), start=plain["start"], keep_all_tokens=True
    )
    tree = parser.parse(contents(sys.argv[2]))
    sys.stdout.buffer.write(Document(plain).write(tree).encode())
    sys.stdout.buffer.flush()
    # No time for taking a deep tree apart.
    os._exit(0)


main()
