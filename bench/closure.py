"""How many descriptors the closure of a text has, by its rules: slow, and so for small texts alone. The formulas of the workloads are
checked with it."""

from grammars import Call, Group, Literal, Set


class Expansion:
    """The alternatives of each rule: a symbol is the number of a rule, a literal or a set."""

    def __init__(self, rules):
        self.numbers = {rule.name: number for number, rule in enumerate(rules)}
        self.rules = [[] for _ in rules]
        for number, rule in enumerate(rules):
            self.rules[number] = self.alternatives(rule.alternatives)

    def alternatives(self, alternatives):
        return [[self.symbol(term) for term in terms] for terms in alternatives]

    def helper(self, alternatives):
        self.rules.append(alternatives)
        return len(self.rules) - 1

    def symbol(self, term):
        if isinstance(term, (Literal, Set)):
            return term
        if isinstance(term, Call):
            return self.numbers[term.name]
        if isinstance(term, Group):
            return self.helper(self.alternatives(term.alternatives))
        return self.repeat(term)

    def repeat(self, term):
        item = self.symbol(term.item)
        if term.sign == "?":
            return self.helper([[item], []])
        between = [] if term.separator is None else [self.symbol(term.separator)]
        several = self.helper([[item]])
        self.rules[several].append([several, *between, item])
        return several if term.sign == "+" else self.helper([[], [several]])


class Closure:
    """A descriptor is a rule, an alternative, a dot in it, where the rule was called, and where the dot is in the text."""

    def __init__(self, rules, text):
        self.rules = Expansion(rules).rules
        self.text = text
        self.descriptors = set()
        self.todo = []
        self.edges = {}
        self.ends = {}
        self.call(0, 0)
        while self.todo:
            self.step(self.todo.pop())

    def add(self, descriptor):
        if descriptor not in self.descriptors:
            self.descriptors.add(descriptor)
            self.todo.append(descriptor)

    def call(self, rule, start):
        if (rule, start) not in self.edges:
            self.edges[rule, start] = []
            self.ends[rule, start] = []
            for number in range(len(self.rules[rule])):
                self.add((rule, number, 0, start, start))

    def step(self, descriptor):
        rule, number, dot, start, place = descriptor
        symbols = self.rules[rule][number]
        if dot == len(symbols):
            self.end(rule, start, place)
        elif isinstance(symbols[dot], int):
            self.edge(symbols[dot], place, (rule, number, dot + 1, start))
        else:
            end = self.taken(symbols[dot], place)
            if end is not None:
                self.add((rule, number, dot + 1, start, end))

    def taken(self, terminal, place):
        if isinstance(terminal, Literal):
            return place + len(terminal.text) if self.text.startswith(terminal.text, place) else None
        return place + 1 if place < len(self.text) and terminal.has(self.text[place]) else None

    def edge(self, rule, start, behind):
        self.call(rule, start)
        self.edges[rule, start].append(behind)
        for end in self.ends[rule, start]:
            self.add((*behind, end))

    def end(self, rule, start, place):
        if place not in self.ends[rule, start]:
            self.ends[rule, start].append(place)
            for behind in self.edges[rule, start]:
                self.add((*behind, place))


def descriptors(rules, text):
    return len(Closure(rules, text).descriptors)
