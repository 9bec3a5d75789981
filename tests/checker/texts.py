"""Random FlatZinc texts over all constraints, with small domains, and random changes of their answers."""
import random
import re
from collections import namedtuple

import reference

# What stands in a text, and what it means under the planned solution.
Piece = namedtuple("Piece", "text value")
# What a text declares, by what may stand where: lists of pieces, the lists of terms by their length.
Declared = namedtuple("Declared", "integers booleans numbers constants sets rows")

# The arguments that a constraint takes: i and b integers and booleans, N and S numbers and sets that are no variables, I and B
# lists of i and b, K and L lists of numbers and of boolean constants. Lists written with the same digit are equally long.
SIGNATURES = {
    **{name: "i i" for name in ("int_eq", "int_ne", "int_le", "int_lt", "int_abs")},
    **{name: "i i b" for name in ("int_eq_reif", "int_ne_reif", "int_le_reif", "int_lt_reif")},
    **{name: "K1 I1 N" for name in ("int_lin_eq", "int_lin_ne", "int_lin_le")},
    **{name: "K1 I1 N b" for name in ("int_lin_eq_reif", "int_lin_ne_reif", "int_lin_le_reif")},
    **{name: "i i i" for name in ("int_plus", "int_times", "int_div", "int_mod", "int_max", "int_min")},
    **{name: "i I" for name in ("array_int_maximum", "array_int_minimum")},
    "array_int_element": "i K i",
    "array_var_int_element": "i I i",
    "array_bool_element": "i L b",
    "array_var_bool_element": "i B b",
    "set_in": "i S",
    "set_in_reif": "i S b",
    "bool2int": "b i",
    **{name: "b b" for name in ("bool_eq", "bool_le", "bool_lt", "bool_not")},
    **{name: "b b b" for name in ("bool_eq_reif", "bool_le_reif", "bool_lt_reif", "bool_and", "bool_or")},
    "bool_xor": "b b|b b b",
    **{name: "B b" for name in ("array_bool_and", "array_bool_or")},
    "bool_clause": "B B",
    "bool_clause_reif": "B B b",
    "bool_lin_le": "K1 B1 N",
    "bool_lin_eq": "K1 B1 i",
    "pccp_all_different": "I",
    "pccp_cumulative": "I1 D1 D1 W",
}
NAMES = sorted(SIGNATURES)
# No more assignments lie within the bounds of a text's variables, so that each can be tried.
MOST_ASSIGNMENTS = 1500


def number_text(rand, number):
    """A number, at times in base 16 or 8."""
    form = rand.choice(["d"] * 18 + ["x", "o"])
    return str(number) if form == "d" else f"{'-' if number < 0 else ''}0{form}{abs(number):{form}}"


def literal(rand, low, high):
    number = rand.randint(low, high)
    return Piece(number_text(rand, number), number)


def truth(rand):
    number = rand.randint(0, 1)
    return Piece("true" if number else "false", number)


def set_literal(rand):
    """A range, or numbers in any order, some of them twice."""
    if rand.random() < 0.4:
        low = rand.randint(-3, 4)
        high = low + rand.randint(-1, 4)
        return Piece(f"{low}..{high}", reference.Ranges([(low, high)] if low <= high else []))
    numbers = [rand.randint(-3, 6) for _ in range(rand.randint(0, 5))]
    return Piece(f"{{{','.join(map(str, numbers))}}}", reference.Ranges([(n, n) for n in numbers]))


def joined(pieces):
    return Piece(f"[{','.join(it.text for it in pieces)}]", [it.value for it in pieces])


class Maker:
    """Makes one text: its declarations, a solution that is planned from the start, and constraints."""

    def __init__(self, rand):
        self.rand = rand
        self.lines = []
        self.declared = Declared([], [], [], [], [], {"I": [], "B": [], "K": [], "L": []})
        self.space = 1
        self.unshown = []

    def note(self, name, value, kind):
        piece = Piece(name, value)
        getattr(self.declared, kind).append(piece)
        return piece

    # ---- declarations

    def parameters(self):
        rand, shown = self.rand, self.rand.choice(["", "", " :: output_var"])
        for k in range(rand.randint(0, 2)):
            piece = literal(rand, -4, 6)
            self.lines.append(f"int: p{k}{shown} = {piece.text};")
            self.note(f"p{k}", piece.value, "numbers")
        if rand.random() < 0.4:
            piece = truth(rand)
            self.lines.append(f"bool: q{shown} = {piece.text};")
            self.note("q", piece.value, "constants")
        if rand.random() < 0.4:
            piece = set_literal(rand)
            self.lines.append(f"set of int: s = {piece.text};")
            self.note("s", piece.value, "sets")

    def integer(self, k):
        """A variable with a domain that holds the planned number."""
        rand, most = self.rand, max(1, min(6, MOST_ASSIGNMENTS // self.space))
        shown = "" if rand.random() < 0.15 else " :: output_var"
        name, form = f"x{k}", rand.random()
        if form < 0.2 and self.declared.integers:
            other = rand.choice(self.declared.integers)
            of, number = rand.choice(["int", f"{other.value - 2}..{other.value + 1}"]), other.value
            words = f" = {other.text}"
        elif form < 0.3:
            number = rand.randint(-4, 6)
            of, words = rand.choice(["int", "-4..6"]), f" = {number_text(rand, number)}"
        elif form < 0.6:
            numbers = [rand.randint(-4, 6) for _ in range(rand.randint(1, most))]
            of, number, words = f"{{{','.join(map(str, numbers))}}}", rand.choice(numbers), ""
            self.space *= max(numbers) - min(numbers) + 1
        else:
            low = rand.randint(-4, 3)
            of, words = f"{low}..{low + rand.randint(0, most - 1)}", ""
            number = rand.randint(low, int(of.split("..")[1]))
            self.space *= int(of.split("..")[1]) - low + 1
        self.lines.append(f"var {of}: {name}{shown}{words};")
        self.unshown += [] if shown else [name]
        self.note(name, number, "integers")

    def boolean(self, k):
        rand = self.rand
        shown = "" if rand.random() < 0.15 else " :: output_var"
        name, number, words = f"b{k}", rand.randint(0, 1), ""
        if rand.random() < 0.15 and self.declared.booleans:
            other = rand.choice(self.declared.booleans)
            number, words = other.value, f" = {other.text}"
        elif rand.random() < 0.1:
            words = f" = {'true' if number else 'false'}"
        else:
            self.space *= 2
        self.lines.append(f"var bool: {name}{shown}{words};")
        self.unshown += [] if shown else [name]
        self.note(name, number, "booleans")

    def indices(self, count):
        """Index sets for what is printed of an array; at times they have another number of places than the array."""
        rand = self.rand
        if count and count % 2 == 0 and rand.random() < 0.4:
            return f"1..2,{rand.randint(-1, 1)}..{count // 2}"
        return rand.choice([f"1..{count}"] * 3 + ["0..1, 2..2,1..1", f"5..{count + 4}"])

    def array(self, name, kind, of, pieces, shown=True):
        printed = f" :: output_array([{self.indices(len(pieces))}])" if shown else ""
        whole = joined(pieces)
        self.lines.append(f"array [1..{len(pieces)}] of {of}: {name}{printed} = {whole.text};")
        self.declared.rows[kind].append(Piece(name, whole.value))

    def arrays(self):
        rand = self.rand
        if rand.random() < 0.5:
            pieces = [self.one("i") for _ in range(rand.randint(1, 4))]
            numbers = sorted({it.value for it in pieces})
            near = ",".join(map(str, [*numbers, numbers[-1] + 1]))
            of = rand.choice(["int", "int", f"{numbers[0]}..{numbers[-1] + 1}", f"{{{near}}}"])
            self.array("xs", "I", f"var {of}", pieces, rand.random() < 0.7)
        if rand.random() < 0.4:
            self.array("bs", "B", "var bool", [self.one("b") for _ in range(rand.randint(0, 4))], rand.random() < 0.7)
        if rand.random() < 0.4:
            self.array("ks", "K", "int", [literal(rand, -3, 5) for _ in range(rand.randint(1, 4))], rand.random() < 0.4)
        if rand.random() < 0.3:
            self.array("ls", "L", "bool", [truth(rand) for _ in range(rand.randint(0, 4))], rand.random() < 0.4)

    def show_others(self):
        """Prints the variables that aren't printed by themselves as entries of arrays."""
        for letter, of in (("x", "int"), ("b", "bool")):
            names = [it for it in self.unshown if it[0] == letter]
            if names:
                names += self.rand.sample(names, self.rand.randint(0, 1)) + self.rand.choice([[], ["true" if of == "bool" else "4"]])
                self.rand.shuffle(names)
                printed = f"output_array([{self.indices(len(names))}])"
                self.lines.append(f"array [1..{len(names)}] of var {of}: shown_{letter} :: {printed} = [{','.join(names)}];")

    # ---- arguments

    def one(self, letter):
        """A term or a set that fits: mostly a variable, where one may stand."""
        rand, declared = self.rand, self.declared
        if letter == "i":
            return rand.choice(declared.integers) if rand.random() < 0.8 else self.one("N")
        if letter == "b":
            return rand.choice(declared.booleans) if rand.random() < 0.85 else self.one("c")
        if letter == "c":
            return rand.choice(declared.constants) if declared.constants and rand.random() < 0.5 else truth(rand)
        if letter == "S":
            return rand.choice(declared.sets) if declared.sets and rand.random() < 0.4 else set_literal(rand)
        if letter in "DW":
            return literal(rand, 0, 5 if letter == "W" else 3)
        return rand.choice(declared.numbers) if declared.numbers and rand.random() < 0.3 else literal(rand, -4, 8)

    def row(self, letter, length):
        """A list of a length, or of any: written out, or one that is declared."""
        rand = self.rand
        kinds = {"I": "IK", "B": "BL"}.get(letter, letter)
        known = [it for kind in kinds for it in self.declared.rows.get(kind, []) if length in (None, len(it.value))]
        if known and rand.random() < 0.4:
            return rand.choice(known)
        length = rand.choice([0, 1, 2, 2, 3, 3, 4]) if length is None else length
        inner = {"I": "i", "B": "b", "K": "N", "L": "c", "D": "D"}[letter]
        return joined([self.one(inner) for _ in range(length)])

    def arguments(self, name):
        length = self.rand.choice([1, 2, 2, 3, 3, 4])
        words = self.rand.choice(SIGNATURES[name].split("|")).split()
        return [
            self.row(word[0], length if word.endswith("1") else None) if word[0] in "IBKLD" else self.one(word) for word in words
        ]

    def constraint(self, name, is_planned):
        """A constraint of this name; where it is planned, one that holds of the planned solution, or none if that is hard."""
        for _ in range(200):
            pieces = self.arguments(name)
            if not is_planned or reference.RELATIONS[name](*(it.value for it in pieces)):
                return f"constraint {name}({','.join(it.text for it in pieces)});"
        return None

    # ---- the whole

    def goal(self):
        rand, search = self.rand, ""
        names = [it.text for it in self.declared.integers]
        aims = [f"minimize {self.one('i').text}", f"maximize {rand.choice(names)}"]
        if rand.random() < 0.4:
            var_choice = rand.choice(["input_order", "first_fail", "smallest", "largest"])
            value_choice = rand.choice(["indomain_min", "indomain_max", "indomain_split", "indomain_reverse_split"])
            search = f" :: int_search([{','.join(rand.sample(names, rand.randint(1, len(names))))}],{var_choice},{value_choice},complete)"
        return f"solve{search} {rand.choice(['satisfy'] * 3 + aims)};"

    def declare(self):
        self.parameters()
        for k in range(self.rand.randint(1, 4)):
            self.integer(k)
        for k in range(self.rand.randint(1, 3)):
            self.boolean(k)
        self.arrays()

    def whole(self, names, is_planned):
        """The text with constraints of these names."""
        made = [self.constraint(name, is_planned) for name in names]
        return "\n".join([*self.lines, *(it for it in made if it), self.goal()]) + "\n"


def random_text(seed):
    """A text: most have a solution that was planned, few hide a variable."""
    rand = random.Random(seed)
    is_planned, maker = rand.random() < 0.85, Maker(rand)
    maker.declare()
    if rand.random() < 0.9:
        maker.show_others()
    return maker.whole([NAMES[seed % len(NAMES)], *rand.sample(NAMES, rand.randint(1, 5))], is_planned)


def text_of_one(name, seed):
    """A text with one constraint, which the planned solution meets, beside those that declarations add; or none."""
    maker = Maker(random.Random(f"{name} {seed}"))
    maker.declare()
    maker.show_others()
    made = maker.constraint(name, True)
    return made and "\n".join([*maker.lines, made, "solve satisfy;"]) + "\n"


def options_for(text, rand):
    """Options for the solver, that change no answer but by -a."""
    options = ["-a"] if rand.random() < 0.6 else []
    if rand.random() < 0.3:
        options += ["-p", str(rand.randint(2, 4))]
    if rand.random() < 0.3:
        options += ["--lanes", "2"]
    return options


# ---- changes of an answer


def near(rand, number):
    """Another number: mostly one nearby, at times one at an end of the range of numbers."""
    return rand.choice([number + 1, number - 1, number + 2, -number, rand.randint(-6, 8), rand.choice([-1, 1]) * reference.GREATEST])


def byte_replaced(rand, model, answer, solutions):
    at = rand.randrange(len(answer))
    byte = rand.choice([rand.randrange(256), rand.choice(b"0123456789-+ ;,=[]\n\r.xtf")])
    return answer[:at] + bytes([byte]) + answer[at + 1:]


def digit_replaced(rand, model, answer, solutions):
    """Another digit behind a blank, a bracket or a minus: mostly one that is printed of a number."""
    places = [it.start() for it in re.finditer(rb"(?<=[ [-])[0-9]", answer)]
    if not places:
        return None
    at = rand.choice(places)
    return answer[:at] + rand.choice([b"%d" % rand.randrange(10), b"-"]) + answer[at + 1:]


def byte_left_out(rand, model, answer, solutions):
    at = rand.randrange(len(answer))
    return answer[:at] + answer[at + 1:]


def byte_put_in(rand, model, answer, solutions):
    at = rand.randint(0, len(answer))
    return answer[:at] + bytes([rand.choice(b"0123456789-+ ;,=[]\n\r.xtf")]) + answer[at:]


def bytes_exchanged(rand, model, answer, solutions):
    at = rand.randrange(len(answer) - 1)
    return answer[:at] + answer[at + 1:at + 2] + answer[at:at + 1] + answer[at + 2:]


def cut_off(rand, model, answer, solutions):
    return answer[:rand.randrange(len(answer))]


def line_left_out(rand, model, answer, solutions):
    lines = answer.splitlines(True)
    del lines[rand.randrange(len(lines))]
    return b"".join(lines)


def line_twice(rand, model, answer, solutions):
    lines = answer.splitlines(True)
    at = rand.randrange(len(lines))
    return b"".join([*lines[:at], lines[at], *lines[at:]])


def lines_exchanged(rand, model, answer, solutions):
    lines = answer.splitlines(True)
    one, other = rand.randrange(len(lines)), rand.randrange(len(lines))
    lines[one], lines[other] = lines[other], lines[one]
    return b"".join(lines)


def something_behind(rand, model, answer, solutions):
    mark = rand.choice(reference.MARKS)
    return answer + rand.choice([f"{mark}\n", mark, "\n", " ", f"{reference.DASHES}\n", "x0 = 1;\n"]).encode()


def number_replaced(rand, model, answer, solutions):
    """Another number, or the same one written otherwise, at one place."""
    places = [it for it in re.finditer(rb"(?<= |\[)(-?[0-9]+|true|false)(?=[;,\]])", answer)]
    if not places:
        return None
    place = rand.choice(places)
    word = place.group().decode()
    if word in ("true", "false"):
        new = rand.choice(["true", "false", "0", "1", "True"])
    else:
        new = rand.choice([str(near(rand, int(word)))] * 4 + [f"+{word}", f"0{word}", "-0", f"{word}0", "140737488355328", "true", ""])
    return answer[:place.start()] + new.encode() + answer[place.end():]


def print_all(model, solutions):
    return "".join(reference.print_solution(model, it) for it in solutions).encode()


def variable_changed(rand, model, answer, solutions):
    """Another number for a variable, wherever it is printed."""
    if not solutions or not model.variables:
        return None
    at, place = rand.randrange(len(solutions)), rand.randrange(len(model.variables))
    changed = list(solutions[at])
    changed[place] = 1 - changed[place] if model.variables[place].is_bool else max(-reference.GREATEST, min(reference.GREATEST, near(rand, changed[place])))
    return print_all(model, [*solutions[:at], changed, *solutions[at + 1:]])


def made_up(rand, model, answer, solutions):
    """Solutions that are drawn: within the bounds, but for few."""
    drawn = []
    for _ in range(rand.randint(1, 3)):
        inside = [rand.randint(max(it.low, -9), min(max(it.low, it.high), 9)) if it.low <= 9 and it.high >= -9 else it.low for it in model.variables]
        drawn.append(inside)
        if rand.random() < 0.3 and any(not it.is_bool for it in model.variables):
            place = rand.choice([k for k, it in enumerate(model.variables) if not it.is_bool])
            inside[place] += rand.choice([-7, 7])
    return print_all(model, [*solutions[:1], *drawn] if rand.random() < 0.5 else drawn)


CHANGES = [
    byte_replaced, digit_replaced, byte_left_out, byte_put_in, bytes_exchanged, cut_off, line_left_out, line_twice, lines_exchanged, something_behind,
    number_replaced, variable_changed, made_up,
]
