"""Random sources, which have a valid list of protocols or none, by the way they are made.

A source is made of statements over values of which it is kept whose secrets they hold. Values of which one host hands in the
secrets can stand at that host, those of two in words that both share, and public ones in copies at all hosts. Only a source that
shall have no valid list has one statement besides, at a random place: a product that holds the secrets of three hosts, or a
division of what two hosts share, in a loop of so many turns that a loop in its place would break the limit on weights.
"""

import random
from typing import NamedTuple

HOSTS = ("alice", "bob", "carol", "dave")
PRINCIPALS = ("A", "B", "C", "D")
PUBLIC = frozenset()

# What sources of a family are made of, besides inputs, operations, declassified values and outputs.
FAMILIES = {
    "straight": frozenset(),
    "branches": frozenset({"variables", "branches"}),
    "loops": frozenset({"variables", "loops"}),
    "arrays": frozenset({"variables", "loops", "arrays"}),
    "mixed": frozenset({"variables", "branches", "loops", "arrays", "functions"}),
    "endorsed": frozenset({"variables", "branches", "loops", "endorsed"}),
}

# Sources without a valid list, by the family whose statements they have besides.
WITHOUT = {f"{family}, none valid": frozenset(FAMILIES[family] | {"impossible"}) for family in ("straight", "branches", "mixed")}

# The limits that a source keeps; the language allows 512 statements, and weights of 65,536.
MOST_STATEMENTS = 505
MOST_WEIGHTS = 65000

# How often a division is executed that no loop can stand for: each costs 488 weights there.
DIVIDED = 140


class Value(NamedTuple):
    """A name in sight."""

    name: str
    kind: str  # word or bool
    secrets: frozenset  # the hosts whose secrets it may hold
    form: str  # let, var, array, or commit
    cells: int = 0  # of an array
    shared_by: frozenset = PUBLIC  # the two hosts that shared it, where it is a binding of what was declassified from there


class Function(NamedTuple):
    """A function of words, with the number of its statements."""

    name: str
    parameters: int
    statements: int


class Text(NamedTuple):
    """An expression: its text, the secrets that it holds, and how many slots it makes."""

    text: str
    secrets: frozenset
    slots: int
    is_atom: bool = True

    def inside(self):
        """The text as an operand."""
        return self.text if self.is_atom else f"({self.text})"


class Maker:
    """Makes one source."""

    def __init__(self, generator, family, hosts, slots):
        self.generator = generator
        self.parts = {**FAMILIES, **WITHOUT}[family]
        self.impossible_from = generator.randrange(slots) if "impossible" in self.parts else None
        self.is_endorsed = "endorsed" in self.parts
        self.hosts = HOSTS[:hosts]
        self.wanted = slots
        self.slots = 0
        self.statements = 0
        self.weights = 0
        self.turns = 1  # how often this place is reached
        self.names = 0
        self.lines = []
        self.depth = 1
        self.scopes = [[]]
        self.functions = []
        self.guarded_by = PUBLIC  # the host whose secret decides whether this place is reached
        self.guarded_from = 0  # the first scope inside of that branch

    # -- words -------------------------------------------------------------------------------------------------------------

    def principals(self, hosts):
        return [PRINCIPALS[HOSTS.index(host)] for host in hosts]

    def anyone(self):
        return " | ".join(self.principals(self.hosts))

    def everyone(self):
        return " & ".join(self.principals(self.hosts))

    def fresh(self, letter):
        self.names += 1
        return f"{letter}{self.names}"

    def add(self, line, slots=0, statements=0):
        """Adds a line that makes so many slots, and so many statements besides."""
        self.lines.append("  " * self.depth + line)
        self.slots += slots
        self.statements += slots + statements
        self.weights += self.turns * (slots + statements)

    def keep(self, value):
        self.scopes[-1].append(value)

    def has_room(self):
        return self.slots < self.wanted and self.statements < MOST_STATEMENTS - 25

    def chance(self, share):
        return self.generator.random() < share

    # -- values in sight ---------------------------------------------------------------------------------------------------

    def visible(self, forms):
        """The values in sight that may be named here."""
        for depth, scope in enumerate(self.scopes):
            for value in scope:
                if value.form not in forms:
                    continue
                if self.guarded_by and depth < self.guarded_from and value.secrets != self.guarded_by:
                    continue
                yield value

    def usable(self, secrets, kind, forms=("let", "var")):
        """Those of a kind that hold no more than these secrets, and can be moved to where these are held."""
        return [
            value
            for value in self.visible(forms)
            if value.kind == kind
            and value.secrets <= secrets
            and (not value.shared_by or len(secrets) < 2 or value.shared_by == secrets)
        ]

    def some_secrets(self):
        """The secrets that a computation may hold here: none, one host's, or two hosts'."""
        if self.guarded_by:
            return self.guarded_by
        most = 1 if self.is_endorsed else 2
        count = self.generator.choices((0, 1, 2)[: most + 1], (25, 35, 40)[: most + 1])[0]
        return frozenset(self.generator.sample(self.hosts, count))

    # -- expressions -------------------------------------------------------------------------------------------------------

    def operand(self, secrets, kind):
        """A name, an element or a literal."""
        arrays = [] if kind == "bool" else self.usable(secrets, kind, ("array",))
        if arrays and self.chance(0.35):
            return self.element(self.generator.choice(arrays))
        values = self.usable(secrets, kind)
        if kind == "bool" and not values:
            return self.truth(secrets, 1)
        if values and not self.chance(0.1):
            value = self.generator.choice(values[-8:] if self.chance(0.6) else values)
            secret = [value for value in values if value.secrets]
            if secret and len(secrets) == 2 and self.chance(0.6):
                value = self.generator.choice(secret)
            return Text(value.name, value.secrets, 1 if value.form == "var" else 0)
        if kind == "bool":
            return Text(self.generator.choice(("true", "false")), PUBLIC, 1)
        return Text(str(self.generator.randrange(100)), PUBLIC, 1)

    def index(self, array):
        """An index that each host of the array may read."""
        known = array.secrets if len(array.secrets) == 1 else PUBLIC
        values = self.usable(known, "word")
        if not values or self.chance(0.3):
            return Text(str(self.generator.randrange(array.cells)), PUBLIC, 1)
        value = self.generator.choice(values[-6:])
        mention = Text(value.name, value.secrets, 1 if value.form == "var" else 0)
        if self.chance(0.3):
            return Text(f"{mention.text} + {self.generator.randrange(1, 4)}", mention.secrets, mention.slots + 2, False)
        return mention

    def element(self, array):
        index = self.index(array)
        return Text(f"{array.name}[{index.text}]", array.secrets | index.secrets, index.slots + 1)

    def call(self, secrets):
        function = self.generator.choice(self.functions)
        arguments = [self.operand(secrets, "word") for _ in range(function.parameters)]
        self.statements += 1
        return Text(
            f"{function.name}({', '.join(argument.text for argument in arguments)})",
            frozenset().union(*(argument.secrets for argument in arguments)),
            function.statements + sum(argument.slots for argument in arguments),
        )

    def is_call(self, text):
        """Whether the expression is a call alone; a binding of it is a copy."""
        return text.is_atom and any(text.text.startswith(f"{function.name}(") for function in self.functions)

    def expression(self, secrets, kind, operations):
        """So many operations at most."""
        if operations == 0:
            return self.operand(secrets, kind)
        if kind == "bool":
            return self.truth(secrets, operations)
        if self.functions and self.chance(0.15):
            return self.call(secrets)
        division = 1 if len(secrets) < 2 else 0
        form = self.generator.choices(
            ("+", "-", "*", "scale", "&", "|", "^", "shift", "~", "min", "max", "mux", "/", "%"),
            (5, 4, 4, 1, 1, 1, 1, 1, 0.5, 2, 2, 1.5, division, division),
        )[0]
        left = self.expression(secrets, kind, self.generator.randrange(operations))
        if form == "scale":
            return Text(f"{left.inside()} * {self.generator.randrange(2, 9)}", left.secrets, left.slots + 1, False)
        if form == "shift":
            sign = self.generator.choice(("<<", ">>"))
            return Text(f"{left.inside()} {sign} {self.generator.randrange(1, 8)}", left.secrets, left.slots + 1, False)
        if form == "~":
            return Text(f"~{left.inside()}", left.secrets, left.slots + 1, False)
        right = self.expression(secrets, kind, self.generator.randrange(operations))
        both = left.secrets | right.secrets
        slots = left.slots + right.slots + 1
        if form in ("min", "max"):
            return Text(f"{form}({left.text}, {right.text})", both, slots)
        if form == "mux":
            guard = self.expression(secrets, "bool", self.generator.randrange(operations))
            return Text(f"mux({guard.text}, {left.text}, {right.text})", both | guard.secrets, slots + guard.slots)
        if form == "*" and right.text.isdigit():
            slots -= 1
        return Text(f"{left.inside()} {form} {right.inside()}", both, slots, False)

    def truth(self, secrets, operations):
        form = self.generator.choices(("compare", "&", "|", "!"), (8, 1, 1, 1))[0]
        kind = "word" if form == "compare" else "bool"
        left = self.expression(secrets, kind, self.generator.randrange(operations))
        if form == "!":
            return Text(f"!{left.inside()}", left.secrets, left.slots + 1, False)
        right = self.expression(secrets, kind, self.generator.randrange(operations))
        sign = self.generator.choice(("<", "<=", ">", ">=", "==", "!=")) if form == "compare" else form
        return Text(f"{left.inside()} {sign} {right.inside()}", left.secrets | right.secrets, left.slots + right.slots + 1, False)

    def published(self, text):
        """The expression, told to all hosts and trusted by all."""
        told = Text(f"declassify({text.text}, {{{self.anyone()}}})", PUBLIC, text.slots + 1)
        if not self.is_endorsed:
            return told
        return Text(f"endorse({told.text}, {{{self.everyone()}}})", PUBLIC, told.slots + 1)

    # -- statements --------------------------------------------------------------------------------------------------------

    def input(self):
        host = next(iter(self.guarded_by)) if self.guarded_by else self.generator.choice(self.hosts)
        name = self.fresh("x")
        self.add(f"let {name} = input({host});", 1)
        self.keep(Value(name, "word", frozenset({host}), "let"))

    def compute(self):
        kind = "bool" if self.chance(0.15) else "word"
        text = self.expression(self.some_secrets(), kind, self.generator.randrange(1, 4))
        name = self.fresh("v")
        self.add(f"let {name} = {text.text};", text.slots + self.is_call(text))
        self.keep(Value(name, kind, text.secrets, "let"))

    def publish(self):
        """A binding, or a variable that can be moved to wherever it is loaded."""
        secrets = self.some_secrets()
        kind = "bool" if self.chance(0.4) else "word"
        text = self.expression(secrets, kind, self.generator.randrange(1, 3))
        told = self.published(text)
        if "variables" in self.parts and self.chance(0.5):
            name = self.fresh("p")
            self.add(f"var {name}: {kind} = {told.text};", told.slots + 1)
            self.keep(Value(name, kind, PUBLIC, "var"))
        else:
            name = self.fresh("d")
            self.add(f"let {name} = {told.text};", told.slots)
            shared_by = text.secrets if len(text.secrets) == 2 and len(self.hosts) > 2 else PUBLIC
            self.keep(Value(name, kind, PUBLIC, "let", shared_by=shared_by))

    def commit(self):
        """A word of one host, committed to at another, to be opened by a later statement."""
        host, other = self.generator.sample(self.hosts, 2)
        held = [value for value in self.usable(frozenset({host}), "word", ("let",)) if value.secrets]
        if not held:
            self.input()
            return
        name = self.fresh("c")
        both = " & ".join(sorted(self.principals((host, other))))
        self.add(f"let {name} = endorse({self.generator.choice(held).name}, {{{both}}});", 1)
        self.keep(Value(name, "word", frozenset({host}), "commit"))

    def open(self):
        committed = list(self.visible(("commit",)))
        if not committed:
            self.commit()
            return
        name = self.fresh("d")
        told = f"declassify({self.generator.choice(committed).name}, {{{self.anyone()}}})"
        if len(self.hosts) == 2:
            self.add(f"let {name} = {told};", 1)
        else:
            self.add(f"let {name} = endorse({told}, {{{self.everyone()}}});", 2)
        self.keep(Value(name, "word", PUBLIC, "let"))

    def declare(self):
        secrets = self.some_secrets()
        kind = "bool" if self.chance(0.15) else "word"
        text = self.expression(secrets, kind, self.generator.randrange(2))
        name = self.fresh("s")
        self.add(f"var {name}: {kind} = {text.text};", text.slots + 1)
        self.keep(Value(name, kind, secrets, "var"))

    def assign(self):
        variables = list(self.visible(("var",)))
        if not variables:
            self.declare()
            return
        variable = self.generator.choice(variables[-6:])
        text = self.expression(variable.secrets, variable.kind, self.generator.randrange(1, 3))
        self.add(f"{variable.name} := {text.text};", text.slots, 1)

    def allot(self):
        secrets = self.some_secrets()
        cells = self.generator.randrange(2, 9)
        name = self.fresh("t")
        self.add(f"array {name}: word[{cells}];", 1)
        self.keep(Value(name, "word", secrets, "array", cells))
        if len(secrets) == 1 and self.chance(0.6):
            self.fill(self.scopes[-1][-1])

    def fill(self, array):
        """Every cell is handed in by the host whose secrets the array holds."""
        turn = self.enter(array.cells)
        self.depth += 1
        self.add(f"{array.name}[{turn}] := input({next(iter(array.secrets))});", 1, 1)
        self.depth -= 1
        self.leave(array.cells)

    def write(self):
        arrays = list(self.visible(("array",)))
        if not arrays:
            self.allot()
            return
        array = self.generator.choice(arrays[-4:])
        index = self.index(array)
        text = self.expression(array.secrets, "word", self.generator.randrange(1, 3))
        self.add(f"{array.name}[{index.text}] := {text.text};", index.slots + text.slots, 1)

    def output(self):
        """Something that the host may be told, or that it is told by a declassification."""
        host = next(iter(self.guarded_by)) if self.guarded_by else self.generator.choice(self.hosts)
        own = frozenset({host})
        if self.guarded_by or self.is_endorsed or self.chance(0.5):
            secrets = own if self.guarded_by or self.chance(0.5) else PUBLIC
            text = self.expression(secrets, "word", self.generator.randrange(2))
        else:
            secrets = self.some_secrets()
            text = self.expression(secrets, "word", self.generator.randrange(1, 3))
            if len(text.secrets) == 2 or not text.secrets <= own:
                text = self.published(text)
        self.add(f"output {text.text} to {host};", text.slots, 1)

    def block(self, most):
        self.depth += 1
        self.scopes.append([])
        for _ in range(self.generator.randrange(1, most + 1)):
            self.statement()
        self.scopes.pop()
        self.depth -= 1

    def branch(self):
        """By a public guard, or by one host's secret; then the branches are that host's alone."""
        secrets = self.some_secrets()
        text = self.expression(secrets, "bool", self.generator.randrange(1, 3))
        outside = (self.guarded_by, self.guarded_from)
        if not self.guarded_by and text.secrets:
            if len(text.secrets) == 1 and self.chance(0.3):
                self.guarded_by, self.guarded_from = text.secrets, len(self.scopes)
            else:
                text = self.published(text)
        self.add(f"if ({text.text}) {{", text.slots, 1)
        self.block(4)
        if self.chance(0.5):
            self.add("} else {")
            self.block(4)
        self.add("}")
        self.guarded_by, self.guarded_from = outside

    def enter(self, turns):
        """Begins a loop of so many turns, and names the number of its turn."""
        turn = self.fresh("i")
        self.turns *= turns
        self.add(f"for {turn} to {turns} {{", 1, 1)
        return turn

    def leave(self, turns):
        self.turns //= turns
        self.add("}")

    def loop(self):
        turns = self.generator.randrange(2, 7)
        turn = self.enter(turns)
        self.scopes.append([Value(turn, "word", PUBLIC, "let")])
        self.block(5)
        self.scopes.pop()
        self.leave(turns)

    def statement(self):
        nested = len(self.scopes) < 5
        choices = [(self.compute, 8), (self.input, 2), (self.output, 1.5)]
        if not self.guarded_by:
            choices += [(self.publish, 2.5)]
        if "variables" in self.parts:
            choices += [(self.declare, 1.5), (self.assign, 4)]
        if "branches" in self.parts and nested:
            choices += [(self.branch, 3)]
        if "loops" in self.parts and nested:
            choices += [(self.loop, 1.5)]
        if "arrays" in self.parts:
            choices += [(self.allot, 1), (self.write, 4)]
        if self.is_endorsed and not self.guarded_by:
            choices += [(self.commit, 1.5), (self.open, 1.5)]
        if not self.has_room():
            choices = [(self.compute, 1), (self.input, 1)]
        make = self.generator.choices([choice for choice, _ in choices], [weight for _, weight in choices])[0]
        make()

    def impossible(self):
        """A word that no protocol can have: of three hosts' secrets, or what two of them share is divided too often."""
        owners = self.generator.sample(self.hosts, min(3, len(self.hosts)))
        names = []
        for host in owners:
            names.append(self.fresh("x"))
            self.add(f"let {names[-1]} = input({host});", 1)
        form = self.generator.choice(("product", "division")) if len(owners) == 3 else "division"
        if form == "product":
            self.add(f"let {self.fresh('v')} = {' * '.join(names)};", 2)
        else:
            self.enter(DIVIDED)
            self.depth += 1
            self.add(f"let {self.fresh('v')} = {names[0]} / {names[1]};", 1)
            self.depth -= 1
            self.leave(DIVIDED)

    def function(self):
        """Of one or two words, of what shared words can do."""
        name = self.fresh("f")
        parameters = [self.fresh("n") for _ in range(self.generator.randrange(1, 3))]
        first, last = parameters[0], parameters[-1]
        middle = self.fresh("m")
        text, statements = self.generator.choice((
            (f"{first} * {last} + 1", 3),
            (f"max({first}, {last}) - {first}", 2),
            (f"mux({first} < {last}, {last} - {first}, {first} - {last})", 4),
            (f"({first} + {last}) * {first}", 2),
        ))
        declared = ", ".join(f"{parameter}: word" for parameter in parameters)
        self.lines.append(f"fun {name}({declared}): word {{")
        self.lines.append(f"  let {middle} = {text};")
        self.lines.append(f"  return {middle} + {middle};")
        self.lines.append("}")
        self.functions.append(Function(name, len(parameters), statements + 1))

    def source(self):
        self.lines.append(f"principals {', '.join(self.principals(self.hosts))};")
        for host in self.hosts:
            trusted_by = self.principals([host]) if self.is_endorsed else self.principals(self.hosts)
            self.lines.append(f"host {host} {{{self.principals([host])[0]} ; {' & '.join(trusted_by)}}};")
        if "functions" in self.parts:
            for _ in range(self.generator.randrange(1, 3)):
                self.function()
        self.lines.append("main {")
        for host in self.hosts:
            name = self.fresh("x")
            self.add(f"let {name} = input({host});", 1)
            self.keep(Value(name, "word", frozenset({host}), "let"))
        while self.has_room():
            if self.impossible_from is not None and self.slots >= self.impossible_from:
                self.impossible()
                self.impossible_from = None
            self.statement()
        if self.impossible_from is not None:
            self.impossible()
        for host in self.hosts:
            text = self.expression(PUBLIC, "word", 1)
            self.add(f"output {text.text} to {host};", text.slots, 1)
        self.lines.append("}")
        return "\n".join(self.lines) + "\n"


def source(family, hosts, least, most, seed):
    """A source of a family, with a number of slots in these bounds, and that number."""
    generator = random.Random(seed)
    while True:
        maker = Maker(generator, family, hosts, generator.randrange(least, most + 1))
        text = maker.source()
        is_small = maker.statements <= MOST_STATEMENTS and maker.weights <= MOST_WEIGHTS
        if least <= maker.slots <= most and is_small:
            return text, maker.slots


class Step(NamedTuple):
    """A statement of a shuffled source."""

    line: str
    needs: frozenset  # the names that it mentions


def in_random_order(generator, steps):
    """The lines of the steps, in an order in which each name stands before where it is mentioned."""
    made = {step.line.split()[1] for step in steps if step.line.startswith("let ")}
    left, known, lines = list(steps), set(), []
    while left:
        ready = [step for step in left if step.needs & made <= known]
        step = generator.choice(ready)
        left.remove(step)
        lines.append("  " + step.line)
        if step.line.startswith("let "):
            known.add(step.line.split()[1])
    return lines


def shuffled(hosts, least, most, seed):
    """A source without branches, of a number of slots in these bounds, and that number.

    Each value is of one operation on two others, whichever they are, of a few kinds that cost the same at many protocols; and
    the statements stand in random order. So most lists of protocols cost as much as many others.
    """
    generator = random.Random(seed)
    names = HOSTS[:hosts]
    letters = PRINCIPALS[:hosts]
    anyone = " | ".join(letters)
    slots = generator.randrange(least, most + 1) - hosts
    values, steps = [], []
    while len(steps) < slots:
        name = f"v{len(steps)}"
        kind = generator.choices(("input", "operation", "told"), (2, 8, 1))[0]
        value = generator.choice(values) if values else None
        if kind == "told" and value is not None and value.secrets:
            shared_by = value.secrets if len(value.secrets) == 2 and hosts > 2 else PUBLIC
            steps.append(Step(f"let {name} = declassify({value.name}, {{{anyone}}});", frozenset({value.name})))
            values.append(Value(name, "word", PUBLIC, "let", shared_by=shared_by))
            continue
        fitting = [] if value is None else [
            other
            for other in values
            if len(value.secrets | other.secrets) <= 2
            and all(
                not one.shared_by or len(value.secrets | other.secrets) < 2 or one.shared_by == value.secrets | other.secrets
                for one in (value, other)
            )
        ]
        if kind != "operation" or not fitting:
            host = generator.choice(names)
            steps.append(Step(f"let {name} = input({host});", frozenset()))
            values.append(Value(name, "word", frozenset({host}), "let"))
            continue
        other = generator.choice(fitting)
        sign = generator.choice(("+", "-", "*"))
        steps.append(Step(f"let {name} = {value.name} {sign} {other.name};", frozenset({value.name, other.name})))
        values.append(Value(name, "word", value.secrets | other.secrets, "let"))
    lines = in_random_order(generator, steps)
    for host in names:
        value = generator.choice(values)
        lines.append(f"  let o{host} = declassify({value.name}, {{{anyone}}});")
        lines.append(f"  output o{host} to {host};")
    head = [f"principals {', '.join(letters)};"]
    head += [f"host {host} {{{own} ; {' & '.join(letters)}}};" for host, own in zip(names, letters)]
    return "\n".join([*head, "main {", *lines, "}"]) + "\n", slots + hosts
