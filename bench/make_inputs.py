#!/usr/bin/env python3
"""Write the inputs of the benchmark, each a folder with table.bin and sched.bin.

    python3 bench/make_inputs.py FOLDER DESK..

DESK is the command of the built C program, which makes the schedules: at each point it delivers the oldest message
of a channel chosen by chance, until the schedule is full (10,000 deliveries). FOLDER, which is made, has a file LIST
with the group and the name of each input.
"""
import random
import shutil
import subprocess
import sys
from pathlib import Path

HOUSE = Path(__file__).resolve().parent.parent
DELIVERIES = 10000
SEED = 1

# These come to rest after their own schedule, which the rounds of the benchmark then repeat.
RESTING = ("loom_step", "dining_philosophers")


def record(kind, *body):
    """Body length and kind, two bytes each, low byte first; then the body."""
    return bytes([len(body), 0, kind, 0, *body])


def table(states, moves, vectors):
    """The bytes of a table: states of each task, {(task, from, gate): to}, the masks of each gate."""
    out = record(1, len(states), len(vectors))
    for number, count in enumerate(states):
        out += record(2, number, count, 0)
    for (task, source, gate), target in sorted(moves.items()):
        out += record(3, task, source, gate, target)
    for gate, masks in enumerate(vectors):
        for mask in masks:
            out += record(4, gate, mask & 255, mask >> 8)
    return out


def mask_of(tasks):
    return sum(1 << task for task in tasks)


def loom_line():
    """The paper's table E with a way back for task 1, which in E comes to rest after its first step."""
    moves = {(0, 0, 0): 0, (1, 0, 0): 1, (1, 0, 1): 1, (1, 1, 0): 0, (1, 1, 1): 0, (2, 0, 1): 0}
    return table([1, 2, 1], moves, [[mask_of((0, 1))], [mask_of((1, 2))]])


def philosophers():
    """Eight with a fork between each two, as examples/dining_philosophers, but hungry again after a meal."""
    moves, takes = {}, []
    for i in range(8):
        after = (i + 1) % 8
        takes.append(mask_of((i, 8 + i, 8 + after)))
        for task, state in ((i, 1), (8 + i, 1), (8 + after, 2)):
            moves[task, 0, i] = state
            moves[task, state, 8 + i] = 0
    return table([2] * 8 + [3] * 8, moves, [[mask] for mask in takes * 2])


def full():
    """The most of everything: 33,782 bytes. Vectors have two to four tasks."""
    chance = random.Random(SEED)
    moves = {(t, x, g): chance.randrange(16) for t in range(16) for x in range(16) for g in range(16)}
    vectors = []
    for _ in range(16):
        masks = []
        while len(masks) < 8:
            mask = mask_of(chance.sample(range(16), chance.randint(2, 4)))
            if mask not in masks:
                masks.append(mask)
        vectors.append(masks)
    return table([16] * 16, moves, vectors)


def barrier():
    """One vector of all 16 tasks, again and again."""
    return table([1] * 16, {(t, 0, 0): 0 for t in range(16)}, [[0xFFFF]])


def grown(tasks, vectors):
    """Tasks of one state that are ready at each gate that knows them; vectors are the masks of each gate."""
    moves = {(t, 0, g): 0 for g, masks in enumerate(vectors) for mask in masks for t in range(tasks) if mask >> t & 1}
    return table([1] * tasks, moves, vectors)


def in_pairs(tasks):
    """Each two tasks meet at a gate of their own, of eight, so that a task has the same to do however many there are."""
    return grown(tasks, [[mask_of((2 * g, 2 * g + 1))] if 2 * g < tasks else [] for g in range(8)])


def mixed(gates, vectors):
    """Eight tasks, and at each gate so many of their pairs; neighbours before those who sit further apart."""
    pairs = [mask_of((a, (a + far) % 8)) for far in range(1, 4) for a in (0, 2, 4, 6, 1, 3, 5, 7)]
    return grown(8, [[pairs[(g * vectors + v) % len(pairs)] for v in range(vectors)] for g in range(gates)])


def tables():
    """Group, name and bytes of each."""
    yield "lines", "loom_line", loom_line()
    yield "lines", "token_ring", (HOUSE / "examples" / "token_ring" / "table.bin").read_bytes()
    yield "lines", "philosophers", philosophers()
    yield "lines", "full", full()
    yield "lines", "barrier", barrier()
    for tasks in (2, 4, 8, 16):
        yield "growth", f"tasks_{tasks}", in_pairs(tasks)
    for gates in (1, 4, 16):
        yield "growth", f"gates_{gates}", mixed(gates, 2)
    for vectors in (1, 4, 8):
        yield "growth", f"vectors_{vectors}", mixed(8, vectors)


def main():
    folder, desk = Path(sys.argv[1]), sys.argv[2:]
    listed = []
    for name in RESTING:
        shutil.copytree(HOUSE / "examples" / name, folder / name)
        listed.append(f"lines {name}\n")
    for group, name, made in tables():
        (folder / name).mkdir(parents=True)
        (folder / name / "table.bin").write_bytes(made)
        words = [*desk, str(folder / name / "table.bin"), str(DELIVERIES), str(SEED)]
        (folder / name / "sched.bin").write_bytes(subprocess.run(words, check=True, capture_output=True).stdout)
        listed.append(f"{group} {name}\n")
    (folder / "LIST").write_text("".join(listed))


if __name__ == "__main__":
    main()
