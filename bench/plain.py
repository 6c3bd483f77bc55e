"""A grammar in plain rules without operators, as the peers read it.

Terminals are single characters, in classes that have no character together: `T0`, `T1` and so on. A symbol `r0`, `r1` and so on
stands for a rule of the grammar with the mark of its call, or for a helper.
"""

from grammars import Call, Group, Literal, Set

ASCII = {chr(number) for number in range(32, 127)} | set("\t\n\r")


def terminals(value):
    """All literals and sets in a term, a rule or a tuple of these."""
    if isinstance(value, (Literal, Set)):
        return [value]
    if isinstance(value, tuple):
        return [terminal for part in value for terminal in terminals(part)]
    if isinstance(value, Call) or value is None:
        return []
    if hasattr(value, "alternatives"):
        return terminals(value.alternatives)
    return terminals((value.item, value.separator))


def classes(rules, text):
    """The class of each character of ASCII and of the text: two are of one class where no terminal tells them apart."""
    found = terminals(tuple(rules))
    sets = list(dict.fromkeys(terminal for terminal in found if isinstance(terminal, Set)))
    single = {character for terminal in found if isinstance(terminal, Literal) for character in terminal.text}
    numbers = {}
    return {
        character: numbers.setdefault(told_by(character, sets, single), f"T{len(numbers)}")
        for character in sorted(ASCII | single | set(text))
    }


def told_by(character, sets, single):
    return tuple(terminal.has(character) for terminal in sets), character if character in single else ""


class Plain:
    """`symbols` has the kind and the name of each symbol; a production is its symbol, its parts, and for each of them whether a
    character that stands there is shown."""

    def __init__(self, rules, text):
        self.classes = classes(rules, text)
        self.rules = {rule.name: rule for rule in rules}
        self.symbols = {}
        self.productions = []
        self.known = {}
        self.start = self.call(Call(rules[0].name))

    def symbol(self, key, kind, name, alternatives):
        """The symbol of a key, with a production for each alternative where it is new; they are made when the symbol is known,
        since they may name it."""
        if key not in self.known:
            symbol = self.known[key] = f"r{len(self.known)}"
            self.symbols[symbol] = (kind, name)
            for parts in alternatives(symbol):
                self.productions.append((symbol, [part for part, _ in parts], [int(shown) for _, shown in parts]))
        return self.known[key]

    def helper(self, term, alternatives):
        return self.symbol(term, "hidden", "", alternatives)

    def call(self, call):
        rule = self.rules[call.name]
        kind = {"@": "attribute", "-": "hidden"}.get(call.mark or rule.mark, "element")
        return self.symbol((kind, rule.name), kind, rule.name, lambda _: map(self.sequence, rule.alternatives))

    def sequence(self, terms):
        return [part for term in terms for part in self.parts(term)]

    def parts(self, term):
        if isinstance(term, Literal):
            return [(self.classes[character], not term.deleted) for character in term.text]
        if isinstance(term, Set):
            return self.set(term)
        if isinstance(term, Call):
            return [(self.call(term), True)]
        if isinstance(term, Group):
            return [(self.helper(term, lambda _: map(self.sequence, term.alternatives)), True)]
        return [(self.repeat(term), True)]

    def set(self, term):
        members = dict.fromkeys(name for character, name in self.classes.items() if term.has(character))
        parts = [[(member, not term.deleted)] for member in members]
        return parts[0] if len(parts) == 1 else [(self.helper(term, lambda _: parts), True)]

    def repeat(self, term):
        if term.sign == "?":
            return self.helper(term, lambda _: [self.parts(term.item), []])
        several = self.helper((term.item, term.separator), lambda symbol: self.several(symbol, term))
        return several if term.sign == "+" else self.helper(term, lambda _: [[], [(several, True)]])

    def several(self, symbol, term):
        item = self.parts(term.item)
        between = [] if term.separator is None else self.parts(term.separator)
        return [item, [(symbol, True), *between, *item]]

    def data(self):
        return {
            "start": self.start, "symbols": self.symbols, "productions": self.productions, "classes": self.classes,
        }
