#!/usr/bin/env python3
"""Tries four orders of search on a FlatZinc text, side by side under growing node limits, and writes the first answer that is whole.

usage: orders.py [-j N] [--time SECONDS] [--nodes N] [--program PATH] [--write FOLDER] PLAN.fzn

The orders: the text's own solve item; the most constrained variables first; who goes before whom first; a random order,
another one each round. Each is the text with another solve item. Round after round each order is given four times as many nodes;
the first order of that list that ends in a round is taken, so -j (how many run at a time, 2 if left out) changes no byte while
no --time is spent. The cost of the best plan is handed on between rounds, as one constraint more. When time is up, or on Ctrl-C,
or where a signal asks to end (TERM, HUP), all that was started ends, and the best plan that was found is written without the mark
`==========`.

Standard output has the answer; standard error the solve item that won, and what the answer is proved of. --write FOLDER writes the
four texts in place of solving them. Exit status: 0 with an answer, that of turbofzn where it refuses, 70 where an answer is wrong.

Nothing here is proved. What turbofzn writes is proved of the text that it is given.
"""
import argparse
import os
import random
import re
import signal
import subprocess
import sys
import tempfile
import threading
import time
from concurrent.futures import ThreadPoolExecutor
from dataclasses import dataclass, field

HERE = os.path.dirname(os.path.realpath(__file__))
ROOT = os.path.dirname(os.path.dirname(HERE))
BUILT = f"{ROOT}/crates/turbofzn/out/turbofzn"
NAME = re.compile(r"[A-Za-z_]\w*")
DONE = "=========="
NONE = "=====UNSATISFIABLE====="
SOLUTION = "----------"


def items(text):
    """The items of a FlatZinc text, without comments, each with the place at which it begins."""
    found, start, words = [], None, []
    for piece in re.finditer(r'"[^"\n]*"|%[^\n]*|;|[^;"%]+', text):
        word = piece.group()
        if word == ";":
            found.append((start, "".join(words).strip()))
            start, words = None, []
        elif not word.startswith("%"):
            if start is None and word.strip():
                start = piece.start() + len(word) - len(word.lstrip())
            words.append(word)
    return found


def split(text):
    """The parts of a list that commas separate, brackets taken whole."""
    parts, depth, part = [], 0, ""
    for letter in text:
        depth += (letter in "([{") - (letter in ")]}")
        if letter == "," and depth == 0:
            parts.append(part.strip())
            part = ""
        else:
            part += letter
    return [*parts, part.strip()] if part.strip() else parts


@dataclass
class Variable:
    low: int
    high: int
    is_boolean: bool
    is_introduced: bool
    uses: int = 0


@dataclass
class Plan:
    """What is read of a text: its lines before the solve item, that item, and what the orders are made of."""

    head: str = ""
    own: str = ""
    aim: str = "satisfy"
    objective: str = ""
    variables: dict = field(default_factory=dict)
    arrays: dict = field(default_factory=dict)
    constraints: list = field(default_factory=list)

    def entries(self, word):
        """The entries of an array that is named or written out."""
        return split(word[1:-1]) if word.startswith("[") else self.arrays.get(word, [word])

    def goal(self):
        return f"{self.aim} {self.objective}".strip()


def bounds_of(domain):
    """The least and the greatest value of a declared domain, and whether it is boolean."""
    if domain == "bool":
        return 0, 1, True
    numbers = [int(it) for it in re.findall(r"-?\d+", domain)]
    return (min(numbers), max(numbers), False) if numbers else (0, 1 << 47, False)


def read_item(plan, item):
    if item.startswith("var "):
        domain, _, rest = item[4:].partition(":")
        is_introduced = "var_is_introduced" in rest or "is_defined_var" in rest
        plan.variables[NAME.match(rest.strip()).group()] = Variable(*bounds_of(domain.strip()), is_introduced)
    elif item.startswith("array"):
        name, equals = re.search(r":\s*([A-Za-z_]\w*)", item), item.find("= [")
        equals = equals if equals >= 0 else item.find("=")
        if name and equals >= 0:
            plan.arrays[name.group(1)] = split(item[equals + 1 :].strip()[1:-1])
    elif item.startswith("constraint"):
        call = item[len("constraint") :].strip().partition("::")[0].strip()
        plan.constraints.append((NAME.match(call).group(), split(call[call.index("(") + 1 : call.rindex(")")])))


def read_plan(text):
    plan = Plan()
    for start, item in items(text):
        if re.match(r"solve\b", item):
            plan.head = text[:start]
            goal = re.search(r"\b(satisfy|minimize|maximize)\s*([A-Za-z_]\w*)?$", item)
            if goal is None:
                sys.exit("orders.py: an objective with a name is wanted")
            plan.own, plan.aim, plan.objective = item[len("solve") : goal.start()].strip(), goal.group(1), goal.group(2) or ""
        else:
            read_item(plan, item)
    if not plan.head and not plan.own:
        sys.exit("orders.py: the text has no solve item behind others")
    for _, arguments in plan.constraints:
        for name in {it for word in arguments for entry in plan.entries(word) for it in NAME.findall(entry)}:
            if name in plan.variables:
                plan.variables[name].uses += 1
    return plan


def comparisons(plan):
    """The booleans that say whether one variable is at most another, in the text's order, each once."""
    found = []
    for name, arguments in plan.constraints:
        if name in ("int_le_reif", "int_lt_reif") and all(it in plan.variables for it in arguments[:2]):
            found.append(arguments[2])
        elif name == "int_lin_le_reif" and sum(it in plan.variables for it in plan.entries(arguments[1])) == 2:
            found.append(arguments[3])
    return [it for it in dict.fromkeys(found) if it in plan.variables]


def phase(names, choice, value):
    return [f"int_search([{','.join(names)}], {choice}, {value}, complete)"] if names else []


def annotation(phases):
    return f":: seq_search([{', '.join(phases)}])" if phases else ""


def random_phases(names, seed):
    """The variables in a random order, each from a random end."""
    rand = random.Random(seed)
    names = rand.sample(names, len(names))
    phases = []
    for name in names:
        value = rand.choice(["indomain_min", "indomain_max"])
        if phases and phases[-1][1] == value:
            phases[-1][0].append(name)
        else:
            phases.append(([name], value))
    return [it for some, value in phases for it in phase(some, "input_order", value)]


def orders(plan, seed):
    """The four orders: a name and a search annotation each, without those that say the same again."""
    open_names = [it for it, has in plan.variables.items() if has.low < has.high and it != plan.objective]
    chosen = [it for it in open_names if not plan.variables[it].is_introduced] or open_names
    value = "indomain_max" if plan.aim == "maximize" else "indomain_min"
    most_used = sorted(chosen, key=lambda it: -plan.variables[it].uses)
    before = comparisons(plan)
    first = phase(before, "input_order", "indomain_min")
    if not before:
        first = phase([it for it in open_names if plan.variables[it].is_boolean], "input_order", "indomain_max")
    found = [
        ("the text's own", plan.own),
        ("most constrained first", annotation(phase(most_used, "first_fail", value))),
        ("who goes before whom" if before else "booleans first", annotation(first + phase(chosen, "first_fail", "indomain_min"))),
        ("random", annotation(random_phases(chosen, seed))),
    ]
    return [it for k, it in enumerate(found) if it[1] not in [other[1] for other in found[:k]]]


def text_of(plan, solve, bound=None):
    """The text with this solve item, in which the objective is written, and is no worse than the bound if there is one."""
    head, more = plan.head, ""
    if plan.objective:
        head = re.sub(rf"^(\s*var [^;]*?:\s*{plan.objective}\b)(?![^;]*output_var)", r"\1 :: output_var", head, count=1, flags=re.M)
    if bound is not None:
        more = f"constraint {bound_constraint(plan, bound)};\n"
    return f"{head}{more}solve {solve} {plan.goal()};\n"


def bound_constraint(plan, bound):
    return f"int_le({plan.objective},{bound})" if plan.aim == "minimize" else f"int_le({bound},{plan.objective})"


class Race:
    """Which processes run, the first order of the list that has ended in a round, and whether all has to end."""

    def __init__(self):
        # A signal is handled in the main thread, wherever that is.
        self.lock, self.running, self.ended, self.is_stopped = threading.RLock(), {}, None, False

    def begin(self):
        """Begins a round."""
        self.running, self.ended = {}, None

    def start(self, index, words, **streams):
        with self.lock:
            if self.is_stopped or (self.ended is not None and self.ended < index):
                return None
            self.running[index] = subprocess.Popen(words, text=True, **streams)
            return self.running[index]

    def stop(self, beyond=-1):
        """Ends the processes of the orders behind this one. The launcher ends what it started, too."""
        for index, process in self.running.items():
            if index > beyond and process.poll() is None:
                process.terminate()

    def end(self, index):
        with self.lock:
            self.ended = index if self.ended is None else min(index, self.ended)
            self.stop(self.ended)

    def stop_all(self, *_):
        with self.lock:
            self.is_stopped = True
            self.stop()

    def stop_on_signals(self):
        """Ends all where a signal asks for it, unless whoever started this has it ignored."""
        for number in (signal.SIGINT, signal.SIGTERM, signal.SIGHUP):
            if signal.getsignal(number) != signal.SIG_IGN:
                signal.signal(number, self.stop_all)


def is_whole(plan, answer):
    return DONE in answer or NONE in answer or (plan.aim == "satisfy" and SOLUTION in answer)


def run_order(race, index, words, plan, deadline):
    """Runs one order in a round; returns its status and what it wrote, or nothing where it was stopped."""
    process = race.start(index, words, stdout=subprocess.PIPE, stderr=subprocess.PIPE)
    if process is None:
        return None
    try:
        left = None if deadline is None else max(0.0, deadline - time.monotonic())
        answer, complaint = process.communicate(timeout=left)
    except subprocess.TimeoutExpired:
        process.kill()
        process.communicate()
        return None
    if process.returncode < 0 or (race.is_stopped and process.returncode != 0):
        return None
    if process.returncode != 0 or is_whole(plan, answer):
        race.end(index)
    return process.returncode, answer, complaint


def cost_of(plan, answer):
    found = re.search(rf"^{plan.objective} = (-?\d+);$", answer, re.M) if plan.objective else None
    return int(found.group(1)) if found else None


def is_better(plan, cost, other):
    return other is None or (cost < other if plan.aim == "minimize" else cost > other)


def without_added(plan, answer):
    """The answer without the objective's line, where the text itself doesn't ask for it."""
    asked = re.search(rf"^\s*var [^;]*?:\s*{plan.objective}\b[^;]*output_var", plan.head, re.M) if plan.objective else True
    return answer if asked else re.sub(rf"^{plan.objective} = -?\d+;\n", "", answer, flags=re.M)


def say(*lines):
    for line in lines:
        print(f"% {line}", file=sys.stderr)


def give(plan, order, answer, bound):
    """Writes a whole answer, and what it is proved of."""
    sys.stdout.write(without_added(plan, answer))
    say(f"order: {order[0]}", f"solve {order[1]} {plan.goal()};")
    if bound is None:
        say("proved of the text with that solve item")
        return 0
    say(
        f"proved of the text with that solve item and one constraint more, {bound_constraint(plan, bound)}:",
        "a plan of that cost was found before. That this constraint takes nothing away isn't proved. It is where the text",
        "is solved once more, by turbofzn alone, with that solve item in the place of its own.",
    )
    return 0


def write_texts(plan, known, bound, folder):
    """Writes the text of each order to the folder; returns the files, in the order of the list."""
    os.makedirs(folder, exist_ok=True)
    files = [f"{folder}/{re.sub('[^a-z]+', '_', name)}.fzn" for name, _ in known]
    for file, (_, way) in zip(files, known):
        with open(file, "w", encoding="latin-1") as to:
            to.write(text_of(plan, way, bound))
    return files


def run_round(race, plan, files, nodes, asked, deadline):
    """Runs all orders with so many nodes; returns how each ended, with nothing for those that were stopped."""
    race.begin()
    with ThreadPoolExecutor(asked.j) as pool:
        ways = [asked.program, "--depth", "0", "--node-limit", str(nodes)]
        jobs = [pool.submit(run_order, race, index, [*ways, file], plan, deadline) for index, file in enumerate(files)]
        return [it.result() for it in jobs]


def give_best(plan, best):
    """Writes the best plan that was found before all had to end, without the mark."""
    say("no order ended")
    if best is None:
        print("=====UNKNOWN=====")
        return 0
    cost, (name, way), answer = best
    sys.stdout.write(without_added(plan, answer))
    say(f"the best plan that was found, of cost {cost}, by the order: {name}", f"solve {way} {plan.goal()};")
    return 0


def give_whole(plan, order, ended, bound):
    """Writes what the order that ended answered, or refuses it."""
    status, answer, complaint = ended
    if status != 0:
        sys.stderr.write(complaint)
        return status
    if bound is not None and NONE in answer:
        say("fault: no solution under the cost of a plan that was found")
        return 70
    return give(plan, order, answer, bound)


def solve(race, plan, asked, folder):
    """The rounds; returns the exit status."""
    deadline = None if asked.time is None else time.monotonic() + asked.time
    best, nodes, seed = None, asked.nodes, 1
    while not race.is_stopped and (deadline is None or time.monotonic() < deadline):
        bound, known = (best[0] if best else None), orders(plan, seed)
        ended = run_round(race, plan, write_texts(plan, known, bound, folder), nodes, asked, deadline)
        if race.ended is not None:
            return give_whole(plan, known[race.ended], ended[race.ended], bound)
        for order, row in zip(known, ended):
            cost = cost_of(plan, row[1]) if row else None
            if cost is not None and is_better(plan, cost, best[0] if best else None):
                best = cost, order, row[1]
        nodes, seed = nodes * 4, seed + 1
    return give_best(plan, best)


def build(race):
    """Has the launcher build the program where it isn't built, or is older than its sources; returns its status."""
    process = race.start(0, [f"{ROOT}/bin/turbofzn", "--make", "2"], stdout=subprocess.DEVNULL)
    return 0 if process is None else process.wait()


def main():
    words = argparse.ArgumentParser(usage=__doc__.split("usage: ")[1].split("\n")[0])
    words.add_argument("-j", type=int, default=2)
    words.add_argument("--time", type=float)
    words.add_argument("--nodes", type=int, default=1000)
    words.add_argument("--program")
    words.add_argument("--write")
    words.add_argument("file")
    asked = words.parse_args()
    with open(asked.file, encoding="latin-1") as file:
        text = file.read()
    try:
        plan = read_plan(text)
    except (AttributeError, IndexError, ValueError):
        sys.exit("orders.py: this is read as no FlatZinc text; turbofzn names the fault")
    if asked.write:
        write_texts(plan, orders(plan, 1), None, asked.write)
        return 0
    race = Race()
    race.stop_on_signals()
    if asked.program is None:
        asked.program = BUILT
        status = build(race)
        if status != 0 and not race.is_stopped:
            return status
    with tempfile.TemporaryDirectory() as folder:
        return solve(race, plan, asked, folder)


if __name__ == "__main__":
    sys.exit(main())
