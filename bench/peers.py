"""Other parsers, where they are installed: Marpa, lark and bison. They get the same texts, and the grammar in plain rules."""

import json
import os
import shutil
import subprocess
import sys
from dataclasses import dataclass

from plain import Plain

HERE = os.path.dirname(os.path.abspath(__file__))


@dataclass(frozen=True)
class Peer:
    """`command` is put before the text's name. A peer that `writes` writes a document; the others say `yes`."""

    name: str
    command: list
    writes: bool


def runs(*command):
    """Whether a command can be run and says that all is well."""
    try:
        return subprocess.run(command, capture_output=True, stdin=subprocess.DEVNULL).returncode == 0
    except OSError:
        return False


def find_python():
    """A Python that has lark: that of the script, or that of the system, which Debian's packages belong to."""
    return next((name for name in (sys.executable, "/usr/bin/python3") if runs(name, "-c", "import lark")), None)


class Peers:
    def __init__(self):
        self.marpa = runs("perl", "-MMarpa::R2", "-MJSON::PP", "-e", "1")
        self.python = find_python()
        self.bison = bool(shutil.which("bison") and shutil.which("cc"))

    def missing(self):
        """A line for each peer that is not here."""
        found = [
            ("Marpa", self.marpa, "libmarpa-r2-perl"),
            ("lark", self.python, "python3-lark"),
            ("bison", self.bison, "bison gcc"),
        ]
        return [
            f"{name} is left out, since it is not installed: apt-get install {package}"
            for name, there, package in found
            if not there
        ]

    def names(self):
        marpa = ["Marpa", "Marpa, tree"] if self.marpa else []
        return marpa + (["lark"] if self.python else []) + (["bison"] if self.bison else [])

    def prepare(self, workload, folder):
        """The peers that are here, ready for a workload. The characters of twenty items are those of any text of it."""
        plain = Plain(workload.rules, "".join(workload.text(20)))
        grammar = os.path.join(folder, "grammar.json")
        with open(grammar, "w", encoding="utf-8") as file:
            json.dump(plain.data(), file)
        marpa = ["perl", os.path.join(HERE, "marpa.pl")]
        found = []
        if self.marpa:
            found.append(Peer("Marpa", [*marpa, "recognise", grammar], False))
            found.append(Peer("Marpa, tree", [*marpa, "tree", grammar], True))
        if self.python:
            found.append(Peer("lark", [self.python, os.path.join(HERE, "lark_peer.py"), grammar], True))
        # A parser of bison's stops at a text that has two trees.
        if self.bison and not workload.ambiguous:
            found.append(Peer("bison", [made_by_bison(plain, folder)], False))
        return found


def made_by_bison(plain, folder):
    """Writes the grammar for bison, and makes a program of it. Conflicts are what GLR is for: bison's warnings are not shown."""
    grammar, source, program = (os.path.join(folder, name) for name in ("grammar.y", "parser.c", "parser"))
    with open(grammar, "w", encoding="utf-8") as file:
        file.write(bison_text(plain))
    for command in (["bison", "-o", source, grammar], ["cc", "-O2", "-w", "-o", program, source]):
        done = subprocess.run(command, capture_output=True, text=True)
        if done.returncode != 0:
            sys.exit(f"bench: {command[0]} fails: {done.stderr}")
    return program


def bison_text(plain):
    tokens = dict.fromkeys(plain.classes.values())
    numbers = {token: 300 + place for place, token in enumerate(tokens)}
    cases = "".join(f"  case {ord(character)}: return {numbers[token]};\n" for character, token in plain.classes.items())
    with open(os.path.join(HERE, "bison.c"), encoding="utf-8") as file:
        program = file.read()
    return (
        "%{\n#include <stdio.h>\n#include <stdlib.h>\n#define YYMAXDEPTH 1000000000\n"
        "static int yylex(void);\nstatic void yyerror(const char *said);\n%}\n%glr-parser\n"
        + "".join(f"%token {token} {number}\n" for token, number in numbers.items())
        + f"%start {plain.start}\n%%\n"
        + "".join(map(bison_rule, bison_alternatives(plain).items()))
        + "%%\nstatic int class_of(int character) {\n  switch (character) {\n"
        + cases
        + "  default: return 299;\n  }\n}\n\n"
        + program
    )


def bison_alternatives(plain):
    alternatives = {}
    for left, right, _ in plain.productions:
        alternatives.setdefault(left, []).append(" ".join(right) or "%empty")
    return alternatives


def bison_rule(item):
    left, alternatives = item
    return f"{left}: " + "\n  | ".join(alternatives) + ";\n"
