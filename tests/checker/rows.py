"""Models and texts of solutions, worked out by hand: what it is about, the two texts, and the checker's status and its lines on
standard output and standard error."""

FACTORS = "var -3..3: x :: output_var;\nvar -3..3: y :: output_var;\nconstraint int_times(x,y,-6);\nsolve satisfy;\n"
FIRST = "x = -3;\ny = 2;\n----------\n"
ALL_FACTORS = f"{FIRST}x = -2;\ny = 3;\n----------\nx = 2;\ny = -3;\n----------\nx = 3;\ny = -2;\n----------\n==========\n"
WRONG_FACTORS = ALL_FACTORS.replace("y = 2", "y = 3")
BAD = (7, "", "bad solution text\n")


def right(count):
    return 0, f"ok {count}\n", ""


def wrong(what):
    return 6, f"solution {what}\n", ""


# A variable that stands by itself and twice in an array beside a constant; constants by themselves; arrays without entries, of
# several index sets, and of booleans.
SHOWN = """int: p :: output_var = 7;
bool: q :: output_var = false;
var 0..3: x :: output_var;
var bool: b :: output_var;
array [1..3] of var int: a :: output_array([1..3]) = [x,5,x];
array [1..4] of var bool: c :: output_array([1..2, -1..0]) = [b,true,q,b];
array [1..0] of var int: e :: output_array([1..0]) = [];
array [1..2] of int: k :: output_array([0..0,0..0,1..2,4..4,5..5,6..6]) = [8,-9];
solve satisfy;
"""


def shown(**lines):
    """A solution of it, with other lines where they are given."""
    named = {
        "p": "7",
        "q": "false",
        "x": "1",
        "b": "true",
        "a": "array1d(1..3, [1, 5, 1])",
        "c": "array2d(1..2, -1..0, [true, true, false, true])",
        "e": "array1d(1..0, [])",
        "k": "array6d(0..0, 0..0, 1..2, 4..4, 5..5, 6..6, [8, -9])",
        **lines,
    }
    return "".join(f"{name} = {words};\n" for name, words in named.items()) + "----------\n"


# Declarations add the first, the second and the fourth constraint.
ADDED = """var {1,4,9}: x :: output_var;
var int: y :: output_var = x;
constraint int_le(x,4);
array [1..2] of var 0..8: a = [y,x];
constraint int_ne_reif(x,4,true);
solve satisfy;
"""


def added(x, y):
    return f"x = {x};\ny = {y};\n----------\n"


def many(parts):
    """A model of many constraints: those that take long to test, those that don't, and those that the solution x = 7 violates."""
    kinds = {"long": "array_int_maximum(x,a)", "short": "int_le(x,9)", "violated": "int_lt(x,5)", "violated too": "int_ne(x,7)"}
    lines = "".join(f"constraint {kinds[kind]};\n" * count for kind, count in parts)
    return f"var 0..9: x :: output_var;\narray [1..400] of var int: a = [{','.join(['x'] * 400)}];\n{lines}solve satisfy;\n"


SEVEN = "x = 7;\n----------\n"

ROWS = [
    # Each status that the texts of two files give.
    ("all factors", FACTORS, ALL_FACTORS, right(4)),
    ("a product that is wrong", FACTORS, WRONG_FACTORS, wrong("1 violates 1 int_times")),
    ("outside", FACTORS, ALL_FACTORS.replace("x = -3", "x = 4"), wrong("1 outside x")),
    ("the last byte missing", FACTORS, ALL_FACTORS[:-1], BAD),
    ("hidden", "var 0..3: x; var 0..3: y; constraint int_lt(x,y); constraint int_lt(y,x); solve satisfy;", "", (8, "", "hidden x\n")),
    ("refused", "var 0..3: x :: output_var;\nconstraint int_pow(x,x,x);\nsolve satisfy;\n", FIRST, (2, "", "refused 5 UnknownConstraint line 2\n")),
    ("refused before hidden", "var 0..3: x;\nconstraint int_pow(x,x,x);\nsolve satisfy;\n", "", (2, "", "refused 5 UnknownConstraint line 2\n")),
    ("hidden before a bad text", "var 0..3: x :: output_var; var bool: b; solve satisfy;", "bad", (8, "", "hidden b\n")),
    # Which solution, and which constraint.
    ("the second of two", FACTORS, f"{FIRST}x = -2;\ny = 2;\n----------\n", wrong("2 violates 1 int_times")),
    ("the third of four", FACTORS, ALL_FACTORS.replace("y = -3", "y = -4"), wrong("3 outside y")),
    ("the first of two that are wrong", FACTORS, f"{FIRST}x = 1;\ny = 1;\n----------\nx = 9;\ny = 9;\n----------\n", wrong("2 violates 1 int_times")),
    ("bounds before constraints", FACTORS, "x = 1;\ny = 4;\n----------\n", wrong("1 outside y")),
    ("a bad text before a wrong solution", FACTORS, f"x = 1;\ny = 1;\n----------\n{FIRST}x\n", BAD),
    ("a solution twice", FACTORS, FIRST + FIRST, right(2)),
    ("the last of 3,000", many([("short", 2999), ("violated", 1)]), SEVEN, wrong("1 violates 3000 int_lt")),
    ("none of 3,000", many([("short", 3000)]), SEVEN, right(1)),
    ("the later one ends first", many([("long", 63), ("violated", 1), ("short", 2000), ("violated too", 1), ("short", 900)]), SEVEN, wrong("1 violates 64 int_lt")),
    ("the later quarter ends first", many([("long", 700), ("violated too", 1), ("short", 2298), ("violated", 1)]), SEVEN, wrong("1 violates 701 int_ne")),
    ("each of 3,000", many([("violated", 3000)]), SEVEN, wrong("1 violates 1 int_lt")),
    # Constraints that declarations add.
    ("added constraints", ADDED, added(4, 4), wrong("1 violates 6 int_ne_reif")),
    ("added constraints that hold", ADDED, added(1, 1), right(1)),
    ("a hole of a set", ADDED, added(3, 3), wrong("1 violates 1 set_in")),
    ("the ends of a set", ADDED, added(0, 0), wrong("1 outside x")),
    ("another number than it has to equal", ADDED, added(1, 9), wrong("1 violates 2 int_eq")),
    ("the constraint behind them", ADDED, added(9, 9), wrong("1 violates 3 int_le")),
    # Numbers.
    ("a plus", FACTORS, FIRST.replace("y = 2", "y = +2"), BAD),
    ("nought with a minus", FACTORS, FIRST.replace("y = 2", "y = -0"), BAD),
    ("a nought before", FACTORS, FIRST.replace("y = 2", "y = 02"), BAD),
    ("a nought before, and a minus", FACTORS, FIRST.replace("x = -3", "x = -03"), BAD),
    ("two minuses", FACTORS, FIRST.replace("x = -3", "x = --3"), BAD),
    ("no number", FACTORS, FIRST.replace("y = 2", "y = "), BAD),
    ("base 16", FACTORS, FIRST.replace("y = 2", "y = 0x2"), BAD),
    ("the greatest number", FACTORS, FIRST.replace("y = 2", "y = 140737488355327"), wrong("1 outside y")),
    ("the least number", FACTORS, FIRST.replace("y = 2", "y = -140737488355327"), wrong("1 outside y")),
    ("one past the greatest", FACTORS, FIRST.replace("y = 2", "y = 140737488355328"), BAD),
    ("one past the least", FACTORS, FIRST.replace("y = 2", "y = -140737488355328"), BAD),
    ("past 64 bits", FACTORS, FIRST.replace("y = 2", "y = 18446744073709551618"), BAD),
    ("a number of many digits", FACTORS, FIRST.replace("y = 2", f"y = {'1' * 5000}"), BAD),
    # Marks and the end.
    ("an empty text", FACTORS, "", right(0)),
    ("an empty text of a model without variables", "solve satisfy;", "", right(0)),
    ("solutions without lines", "solve satisfy;", "----------\n----------\n==========\n", right(2)),
    ("the mark that all are written", FACTORS, "==========\n", right(0)),
    ("the mark that there is none", FACTORS, "=====UNSATISFIABLE=====\n", right(0)),
    ("the mark that none was found", FACTORS, f"{FIRST}=====UNKNOWN=====\n", right(1)),
    ("another mark", FACTORS, f"{FIRST}=====ERROR=====\n", BAD),
    ("cut inside a mark", FACTORS, f"{FIRST}=====", BAD),
    ("cut inside another", FACTORS, "=====UNSATISFI", BAD),
    ("cut inside a mark, with a line end", FACTORS, f"{FIRST}=========\n", BAD),
    ("a mark without its line end", FACTORS, f"{FIRST}==========", BAD),
    ("a solution behind a mark", FACTORS, f"==========\n{FIRST}", BAD),
    ("a mark behind a mark", FACTORS, f"{FIRST}==========\n==========\n", BAD),
    ("a blank line behind a mark", FACTORS, f"{FIRST}==========\n\n", BAD),
    ("no dashes", FACTORS, "x = -3;\ny = 2;\n", BAD),
    ("nine dashes", FACTORS, FIRST.replace("----------", "---------"), BAD),
    ("dashes alone", FACTORS, "----------\n", BAD),
    # Lines.
    ("another order", FACTORS, "y = 2;\nx = -3;\n----------\n", BAD),
    ("a line too many", FACTORS, f"x = -3;\n{FIRST}", BAD),
    ("a comment", FACTORS, f"% found\n{FIRST}", BAD),
    ("line ends of two bytes", FACTORS, FIRST.replace("\n", "\r\n"), BAD),
    ("a blank before the semicolon", FACTORS, FIRST.replace("2;", "2 ;"), BAD),
    ("another name", FACTORS, FIRST.replace("x", "z"), BAD),
    ("a longer name", FACTORS, FIRST.replace("x", "xx"), BAD),
    # What is printed twice, constants, and arrays.
    ("all that can be printed", SHOWN, shown() + shown(x="0", a="array1d(1..3, [0, 5, 0])") + "==========\n", right(2)),
    ("two numbers in an array", SHOWN, shown(a="array1d(1..3, [1, 5, 2])"), BAD),
    ("another number in an array", SHOWN, shown(a="array1d(1..3, [2, 5, 2])"), BAD),
    ("two truth values", SHOWN, shown(c="array2d(1..2, -1..0, [false, true, false, true])"), BAD),
    ("another constant", SHOWN, shown(p="8"), BAD),
    ("another truth value of a constant", SHOWN, shown(q="true"), BAD),
    ("another constant in an array", SHOWN, shown(a="array1d(1..3, [1, 6, 1])"), BAD),
    ("another constant in an array of constants", SHOWN, shown(k="array6d(0..0, 0..0, 1..2, 4..4, 5..5, 6..6, [8, 9])"), BAD),
    ("a truth value as a number", SHOWN, shown(b="1"), BAD),
    ("an entry too few", SHOWN, shown(a="array1d(1..3, [1, 5])"), BAD),
    ("an entry too many", SHOWN, shown(e="array1d(1..0, [1])"), BAD),
    ("no blank between entries", SHOWN, shown(a="array1d(1..3, [1,5,1])"), BAD),
    ("other index sets", SHOWN, shown(c="array2d(1..2, 0..1, [true, true, false, true])"), BAD),
    ("fewer index sets", SHOWN, shown(c="array1d(1..4, [true, true, false, true])"), BAD),
]
