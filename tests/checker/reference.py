"""What fzncheck has to say of a model and a text of solutions, by their definitions and by no line of the program.

The text of a model is taken to have no fault: none is looked for here. Numbers are Python's, without bound.
"""
import re
from collections import namedtuple

# The greatest number of a text, and its most bytes.
GREATEST = 140737488355327
MOST_BYTES = 67108864
DASHES = "----------"
MARKS = ["==========", "=====UNSATISFIABLE=====", "=====UNKNOWN====="]
NAME = re.compile(r"[A-Za-z_][A-Za-z0-9_]*")
TOKEN = re.compile(
    r'(?:[ \t\r\n]|%[^\n]*)*([A-Za-z_][A-Za-z0-9_]*|-?0x[0-9A-Fa-f]+|-?0o[0-7]+|-?[0-9]+|"(?:[^"\\\n]|\\[^\n])*"|::|\.\.|[][(){},;:=])'
)

Variable = namedtuple("Variable", "name is_bool low high")
# A place in the list of declared variables, where it stands as a term. Other terms are numbers.
Place = namedtuple("Place", "number")
# A set, as its ranges.
Ranges = namedtuple("Ranges", "pairs")
Output = namedtuple("Output", "name is_bool front terms back")
Type = namedtuple("Type", "is_var base ranges")
Model = namedtuple("Model", "variables constraints outputs")


# ---- what the constraints hold


def quotient(x, y):
    """x divided by y, rounded toward zero."""
    return abs(x) // abs(y) if (x < 0) == (y < 0) else -(abs(x) // abs(y))


def dot(coefficients, numbers):
    return sum(c * x for c, x in zip(coefficients, numbers))


def is_entry(x, entries, c):
    return 1 <= x <= len(entries) and entries[x - 1] == c


def is_in(x, ranges):
    return any(low <= x <= high for low, high in ranges.pairs)


def is_clause(positive, negative):
    return 1 in positive or 0 in negative


def is_within_limit(starts, durations, usages, limit):
    """At every whole time: what is used rises at starts alone."""
    tasks = list(zip(starts, durations, usages))
    return limit >= 0 and all(sum(r for s, d, r in tasks if s <= t < s + d) <= limit for t in starts)


PLAIN = {
    "int_eq": lambda x, y: x == y,
    "int_ne": lambda x, y: x != y,
    "int_le": lambda x, y: x <= y,
    "int_lt": lambda x, y: x < y,
    "int_lin_eq": lambda cs, xs, c: dot(cs, xs) == c,
    "int_lin_ne": lambda cs, xs, c: dot(cs, xs) != c,
    "int_lin_le": lambda cs, xs, c: dot(cs, xs) <= c,
    "set_in": is_in,
    "bool_eq": lambda x, y: x == y,
    "bool_le": lambda x, y: x <= y,
    "bool_lt": lambda x, y: x < y,
    "bool_clause": is_clause,
}

RELATIONS = {
    **PLAIN,
    # Behind the arguments stands a boolean: true exactly where the constraint holds.
    **{f"{name}_reif": (lambda *them, plain=plain: (them[-1] == 1) == plain(*them[:-1])) for name, plain in PLAIN.items()},
    "int_plus": lambda x, y, z: x + y == z,
    "int_times": lambda x, y, z: x * y == z,
    "int_div": lambda x, y, z: y != 0 and quotient(x, y) == z,
    "int_mod": lambda x, y, z: y != 0 and x - y * quotient(x, y) == z,
    "int_abs": lambda x, y: abs(x) == y,
    "int_max": lambda x, y, z: max(x, y) == z,
    "int_min": lambda x, y, z: min(x, y) == z,
    "array_int_maximum": lambda m, xs: m in xs and all(x <= m for x in xs),
    "array_int_minimum": lambda m, xs: m in xs and all(x >= m for x in xs),
    "array_int_element": is_entry,
    "array_var_int_element": is_entry,
    "array_bool_element": is_entry,
    "array_var_bool_element": is_entry,
    "bool2int": lambda a, x: a == x,
    "bool_not": lambda a, b: a != b,
    "bool_xor": lambda a, b, r=1: (r == 1) == (a != b),
    "bool_and": lambda a, b, r: (r == 1) == (a == 1 and b == 1),
    "bool_or": lambda a, b, r: (r == 1) == (a == 1 or b == 1),
    "array_bool_and": lambda bs, r: (r == 1) == (0 not in bs),
    "array_bool_or": lambda bs, r: (r == 1) == (1 in bs),
    "bool_lin_le": lambda cs, bs, c: dot(cs, bs) <= c,
    "bool_lin_eq": lambda cs, bs, c: dot(cs, bs) == c,
    "pccp_all_different": lambda xs: len(set(xs)) == len(xs),
    "pccp_cumulative": is_within_limit,
}


# ---- the model of a text


def tokens_of(text):
    tokens, at = [], 0
    text = re.sub(r"(?:[ \t\r\n]|%[^\n]*)*\Z", "", text)
    while at < len(text):
        found = TOKEN.match(text, at)
        assert found, f"no token at {text[at:at + 20]!r}"
        tokens.append(found.group(1))
        at = found.end()
    return tokens


def number_of(token):
    sign, digits = (-1, token[1:]) if token[0] == "-" else (1, token)
    base = {"0x": 16, "0o": 8}.get(digits[:2])
    return sign * (int(digits[2:], base) if base else int(digits))


class Reader:
    """Goes over the tokens of a text, item by item."""

    def __init__(self, text):
        self.tokens, self.at = tokens_of(text), 0
        self.meanings = {}
        self.model = Model([], [], [])

    def next(self):
        self.at += 1
        return self.tokens[self.at - 1]

    def sees(self, token):
        return self.at < len(self.tokens) and self.tokens[self.at] == token

    def takes(self, token):
        if self.sees(token):
            self.at += 1
            return True
        return False

    def want(self, token):
        got = self.next()
        assert got == token, f"{got!r} stands where {token!r} is wanted"

    def row(self, closing, element):
        """Elements with commas between, and what closes them."""
        elements = []
        while not self.takes(closing):
            elements.append(element())
            if not self.sees(closing):
                self.want(",")
        return elements

    def ranges(self):
        """A set: a range, or numbers in braces."""
        if self.takes("{"):
            return Ranges([(n, n) for n in self.row("}", lambda: number_of(self.next()))])
        low = number_of(self.next())
        self.want("..")
        high = number_of(self.next())
        return Ranges([(low, high)] if low <= high else [])

    def type(self):
        is_var = self.takes("var")
        if self.takes("set"):
            self.want("of")
            self.want("int")
            return Type(is_var, "set", None)
        for base in ("bool", "int"):
            if self.takes(base):
                return Type(is_var, base, None)
        return Type(is_var, "int", self.ranges())

    def element(self):
        """What an element stands for: a number, the place of a variable, a set or a list."""
        token = self.next()
        if token in ("true", "false"):
            return int(token == "true")
        if token == "[":
            return self.row("]", self.element)
        if NAME.fullmatch(token):
            return self.meanings[token]
        self.at -= 1
        if token == "{" or self.tokens[self.at + 1] == "..":
            return self.ranges()
        self.at += 1
        return number_of(token)

    def annotations(self):
        """The annotations, each a list of its tokens."""
        found = []
        while self.takes("::"):
            start, depth = self.at, 0
            while depth or self.tokens[self.at] not in ("::", "=", ";", "satisfy", "minimize", "maximize"):
                depth += (self.tokens[self.at] in "([") - (self.tokens[self.at] in ")]")
                self.at += 1
            found.append(self.tokens[start:self.at])
        return found

    def constraint(self):
        name = self.next()
        self.want("(")
        self.model.constraints.append((name, self.row(")", self.element)))
        self.annotations()

    def array(self):
        self.want("[")
        self.ranges()
        self.want("]")
        self.want("of")
        of = self.type()
        self.want(":")
        name, annotations = self.next(), self.annotations()
        self.want("=")
        self.meanings[name] = terms = self.element()
        if of.is_var and of.ranges is not None:
            self.model.constraints.extend(("set_in", [term, of.ranges]) for term in terms)
        for words in annotations:
            shape = re.fullmatch(r"output_array\(\[(.*)\]\)", "".join(words))
            if shape and of.base != "set":
                sets = shape.group(1).split(",")
                front = f"array{len(sets)}d({', '.join(sets)}, ["
                self.model.outputs.append(Output(name, of.base == "bool", front, terms, "])"))

    def scalar(self):
        of = self.type()
        self.want(":")
        name, annotations = self.next(), self.annotations()
        value = self.element() if self.takes("=") else None
        self.meanings[name] = self.variable(of, name, value) if of.is_var else value
        if ["output_var"] in annotations and of.base != "set":
            self.model.outputs.append(Output(name, of.base == "bool", "", [self.meanings[name]], ""))

    def variable(self, of, name, value):
        """Declares a variable, with the constraints that its declaration adds."""
        place, is_bool = Place(len(self.model.variables)), of.base == "bool"
        low, high = (0, 1) if is_bool else (-GREATEST, GREATEST)
        if of.ranges is not None:
            numbers = [n for pair in of.ranges.pairs for n in pair]
            low, high = (min(numbers), max(numbers)) if numbers else (1, 0)
        self.model.variables.append(Variable(name, is_bool, low, high))
        if of.ranges is not None and self.was_braces:
            self.model.constraints.append(("set_in", [place, of.ranges]))
        if value is not None:
            self.model.constraints.append(("bool_eq" if is_bool else "int_eq", [place, value]))
        return place

    def read(self):
        while self.at < len(self.tokens):
            self.was_braces = self.tokens[self.at + 1] == "{"
            if self.takes("predicate"):
                self.at = self.tokens.index(";", self.at)
            elif self.takes("constraint"):
                self.constraint()
            elif self.takes("solve"):
                self.at = self.tokens.index(";", self.at)
            elif self.takes("array"):
                self.array()
            else:
                self.scalar()
            self.want(";")
        return self.model


def read_model(text):
    return Reader(text).read()


# ---- solutions and their text


def value(term, solution):
    return solution[term.number] if isinstance(term, Place) else term


def meaning(argument, solution):
    return [value(it, solution) for it in argument] if isinstance(argument, list) else value(argument, solution)


def holds(constraint, solution):
    name, arguments = constraint
    return RELATIONS[name](*(meaning(it, solution) for it in arguments))


def print_number(number, is_bool):
    return ("false", "true")[number] if is_bool else str(number)


def print_line(output, solution):
    numbers = ", ".join(print_number(value(it, solution), output.is_bool) for it in output.terms)
    return f"{output.name} = {output.front}{numbers}{output.back};\n"


def print_solution(model, solution):
    return "".join(print_line(it, solution) for it in model.outputs) + DASHES + "\n"


def hidden(model):
    """The first variable that no line shows, or none."""
    shown = {term.number for output in model.outputs for term in output.terms if isinstance(term, Place)}
    return next((it.name for place, it in enumerate(model.variables) if place not in shown), None)


def read_number(text, is_bool):
    """The number that is written so, or none."""
    if is_bool:
        return {"true": 1, "false": 0}.get(text)
    if len(text) > 16 or not re.fullmatch(r"0|-?[1-9][0-9]*", text):
        return None
    return int(text) if abs(int(text)) <= GREATEST else None


def read_line(output, line, found):
    """Notes the numbers of a line; returns whether it is one of this output and agrees with what was found before."""
    front, back = f"{output.name} = {output.front}", f"{output.back};"
    if not (line.startswith(front) and line.endswith(back) and len(line) >= len(front) + len(back)):
        return False
    inner = line[len(front):len(line) - len(back)]
    words = inner.split(", ") if inner else []
    if len(words) != len(output.terms):
        return False
    for term, word in zip(output.terms, words):
        number = read_number(word, output.is_bool)
        wanted = found.setdefault(term.number, number) if isinstance(term, Place) else term
        if number is None or number != wanted:
            return False
    return True


def read_solutions(model, data):
    """The solutions of a text, or none where it is that of no answer."""
    lines = data.decode("latin-1").split("\n")
    if lines.pop() != "":
        return None
    if lines and lines[-1] in MARKS:
        lines.pop()
    size = len(model.outputs) + 1
    if len(lines) % size:
        return None
    solutions = []
    for at in range(0, len(lines), size):
        found = {}
        if lines[at + size - 1] != DASHES:
            return None
        if not all(read_line(output, line, found) for output, line in zip(model.outputs, lines[at:at + size - 1])):
            return None
        solutions.append([found[place] for place in range(len(model.variables))])
    return solutions


def first_wrong(model, solution):
    """What is wrong with a solution, or none."""
    for number, variable in zip(solution, model.variables):
        if not variable.low <= number <= variable.high:
            return f"outside {variable.name}"
    for number, constraint in enumerate(model.constraints, 1):
        if not holds(constraint, solution):
            return f"violates {number} {constraint[0]}"
    return None


def verdict(model, data):
    """The checker's status, and its lines on standard output and standard error."""
    name = hidden(model)
    if name is not None:
        return 8, "", f"hidden {name}\n"
    solutions = read_solutions(model, data) if len(data) <= MOST_BYTES else None
    if solutions is None:
        return 7, "", "bad solution text\n"
    for number, solution in enumerate(solutions, 1):
        wrong = first_wrong(model, solution)
        if wrong:
            return 6, f"solution {number} {wrong}\n", ""
    return 0, f"ok {len(solutions)}\n", ""


def assignments(model):
    """All numbers for the variables within their bounds: of a variable that has to equal a term before it, that number alone."""
    equal = {}
    for name, arguments in model.constraints:
        if name in ("int_eq", "bool_eq") and isinstance(arguments[0], Place):
            if not isinstance(arguments[1], Place) or arguments[1].number < arguments[0].number:
                equal.setdefault(arguments[0].number, arguments[1])
    partial = [[]]
    for place, variable in enumerate(model.variables):
        if place in equal:
            partial = [[*it, value(equal[place], it)] for it in partial]
        else:
            partial = [[*it, number] for it in partial for number in range(variable.low, variable.high + 1)]
    return partial


def all_solutions(model):
    return [it for it in assignments(model) if first_wrong(model, it) is None]
