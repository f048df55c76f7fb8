#!/usr/bin/env python3
"""Write table.bin and sched.bin of every example from its two text files.

    python3 tools/make_examples.py            all folders of examples/
    python3 tools/make_examples.py FOLDER...  only these

network.txt, one statement a line, `#` starts a remark:

    task 0 feed: states stopped running, start stopped
        task number, name, its states by name (the first is state 0, the next
        state 1, ...; `states 0 1` lists two states named 0 and 1) and the
        state it starts in.  Tasks come as 0, 1, 2, ...
    gate 1 weave: {feed loom} {loom check}
        gate number, name, its synchronization vectors; the first is vector 0.
        A gate may have none.  Gates come as 0, 1, 2, ...
    feed: stopped -> running at weave
        a transition: task, from state, to state, gate.

Tasks stand above the gates that name them, and both above the transitions.  No
two of them share a name.  Transitions may come in any order; the table gets
them in the order it asks for.

schedule.txt, one delivery a line:

    feed -> weave      # remark

delivers the oldest message on its way from feed to weave.  A line that names
two gates, or something that isn't there, is refused here.

A fault stops the run and is told with file, line and reason; nothing is written
for that folder.
"""
import re
import sys
from pathlib import Path

LIMIT = 16          # tasks, gates, and states a task
VECTORS = 8         # vectors a gate
NAME = r"([^\s{}:#,]+)"
TASK = re.compile(rf"task (\d+) {NAME}: states ([^{{}}:#,]+), start {NAME}$")
GATE = re.compile(rf"gate (\d+) {NAME}:((?: *\{{[^{{}}]*\}})*)$")
MOVE = re.compile(rf"{NAME}: {NAME} -> {NAME} at {NAME}$")
DELIVERY = re.compile(rf"{NAME} -> {NAME}$")


class Fault(Exception):
    """What is wrong with a line."""


def need(holds, reason):
    if not holds:
        raise Fault(reason)


def statements(path):
    """The lines that say something: (line number, text, blanks made single)."""
    for number, line in enumerate(path.read_text(encoding="utf-8").splitlines(), 1):
        text = " ".join(line.split("#", 1)[0].split())
        if text:
            yield number, text


class Network:
    def __init__(self):
        self.tasks = {}      # name -> (number, state names, start state)
        self.gates = {}      # name -> (number, masks)
        self.moves = {}      # (task, from, gate) -> to

    def add(self, text):
        if match := TASK.match(text):
            self.add_task(*match.groups())
        elif match := GATE.match(text):
            self.add_gate(*match.groups())
        elif match := MOVE.match(text):
            self.add_move(*match.groups())
        else:
            raise Fault("neither a task nor a gate nor a transition")

    def new_name(self, name, number, others):
        need(name not in self.tasks and name not in self.gates, f"{name} is named twice")
        need(int(number) == len(others), f"number {len(others)} is next, not {number}")
        need(len(others) < LIMIT, f"more than {LIMIT}")

    def add_task(self, number, name, states, start):
        self.new_name(name, number, self.tasks)
        states = states.split()
        need(len(set(states)) == len(states) <= LIMIT, "a state named twice, or more than 16")
        need(start in states, f"no state {start}")
        self.tasks[name] = (int(number), states, states.index(start))

    def add_gate(self, number, name, vectors):
        self.new_name(name, number, self.gates)
        masks = [self.mask(v.split()) for v in re.findall(r"\{([^{}]*)\}", vectors)]
        need(len(set(masks)) == len(masks) <= VECTORS, "a vector twice, or more than 8")
        self.gates[name] = (int(number), masks)

    def mask(self, names):
        need(names, "an empty vector")
        need(len(set(names)) == len(names), "a task twice in one vector")
        return sum(1 << self.task(name)[0] for name in names)

    def task(self, name):
        need(name in self.tasks, f"no task {name}")
        return self.tasks[name]

    def gate(self, name):
        need(name in self.gates, f"no gate {name}")
        return self.gates[name]

    def add_move(self, task, source, target, gate):
        number, states, _ = self.task(task)
        for state in (source, target):
            need(state in states, f"{task} has no state {state}")
        key = (number, states.index(source), self.gate(gate)[0])
        need(key not in self.moves, "this task has a transition from there at that gate")
        self.moves[key] = states.index(target)

    def endpoint(self, name):
        need(name in self.tasks or name in self.gates, f"no task or gate {name}")
        return self.tasks[name][0] if name in self.tasks else 16 + self.gates[name][0]

    def delivery(self, text):
        match = DELIVERY.match(text)
        need(match, "not a delivery")
        source, target = map(self.endpoint, match.groups())
        need(source != target and min(source, target) < LIMIT, "no such channel")
        return record(5, source, target)

    def table(self):
        out = record(1, len(self.tasks), len(self.gates))
        for number, states, start in self.tasks.values():
            out += record(2, number, len(states), start)
        for (task, source, gate), target in sorted(self.moves.items()):
            out += record(3, task, source, gate, target)
        for number, masks in self.gates.values():
            for mask in masks:
                out += record(4, number, mask & 255, mask >> 8)
        return out


def record(kind, *body):
    """Body length and kind, two bytes each, low byte first; then the body."""
    return bytes([len(body), 0, kind, 0, *body])


def each_line(path, act):
    """act on every statement of the file; a fault gets its file and line."""
    answers = []
    for number, text in statements(path):
        try:
            answers.append(act(text))
        except Fault as fault:
            raise Fault(f"{path}:{number}: {fault}") from None
    return answers


def make(folder):
    network = Network()
    each_line(folder / "network.txt", network.add)
    if not (network.tasks and network.gates):
        raise Fault(f"{folder / 'network.txt'}: a network has a task and a gate at least")
    deliveries = each_line(folder / "schedule.txt", network.delivery)
    table = network.table()
    (folder / "table.bin").write_bytes(table)
    (folder / "sched.bin").write_bytes(b"".join(deliveries))
    print(f"{folder.name}: {len(network.tasks)} tasks, {len(network.gates)} gates, "
          f"table {len(table)} bytes, {len(deliveries)} deliveries")


def main():
    examples = Path(__file__).resolve().parent.parent / "examples"
    named = [Path(name) for name in sys.argv[1:]]
    folders = named or sorted(p.parent for p in examples.glob("*/network.txt"))
    try:
        for folder in folders:
            make(folder)
    except (Fault, OSError) as fault:
        sys.exit(f"make_examples: {fault}")


if __name__ == "__main__":
    main()
