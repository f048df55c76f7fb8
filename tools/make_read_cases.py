#!/usr/bin/env python3
"""Writes crates/read_cases/stdin, the cases that program read_cases runs, and stdout, what it has to print.

What is expected of a case with a name of its own is written here by hand, from the paper. The two readers
below are written from the paper too, and from no Rattle code. They have to agree with every line that is written
by hand, and they alone say what is expected of the families (every prefix, every kind at every record, and so on).

A case: tag (T or S), length of the name, name, length of the file (4 bytes), length of the unit (4 bytes), unit.
The file that a reader gets is the unit, repeated and cut to the file's length."""
import pathlib
import struct

ROOM = 65536  # the longest file that the program hands to a reader
INPUT = 262144  # the longest file of cases that it takes
SYSTEM, TASK, TRANSITION, VECTOR, DELIVERY = 1, 2, 3, 4, 5
BODY = {SYSTEM: 2, TASK: 3, TRANSITION: 4, VECTOR: 3, DELIVERY: 2}


# The readers. Each gives answer, place, and for an accepted file what the line says of it.


def u16(file, at):
    return file[at] + 256 * file[at + 1]


class Table:
    def __init__(self):
        self.tasks = self.gates = self.kind = 0
        self.states = []  # of the tasks that have come
        self.moves = []  # (task, from, gate) in file order
        self.vectors = []  # (gate, mask) in file order

    def kind_fault(self, kind):
        if kind not in (SYSTEM, TASK, TRANSITION, VECTOR):
            return True
        if self.kind == 0:
            return kind != SYSTEM
        return kind == SYSTEM or kind < self.kind

    def missing(self):
        return self.kind == 0 or len(self.states) < self.tasks

    def system(self, tasks, gates):
        if not (1 <= tasks <= 16 and 1 <= gates <= 16):
            return 4
        self.tasks, self.gates = tasks, gates
        return 0

    def task(self, number, states, start):
        if not (number < self.tasks and 1 <= states <= 16 and start < states):
            return 4
        if number != len(self.states):
            return 5
        self.states.append(states)
        return 0

    def transition(self, task, start, gate, end):
        if not (task < self.tasks and start < self.states[task] and gate < self.gates and end < self.states[task]):
            return 4
        if self.moves and (task, start, gate) <= self.moves[-1]:
            return 5
        self.moves.append((task, start, gate))
        return 0

    def vector(self, gate, low, high):
        mask = low + 256 * high
        if gate >= self.gates or mask == 0 or mask >= 2**self.tasks:
            return 4
        if sum(g == gate for g, _ in self.vectors) == 8:
            return 7
        if self.vectors and gate < self.vectors[-1][0] or (gate, mask) in self.vectors:
            return 5
        self.vectors.append((gate, mask))
        return 0

    def record(self, file, at):
        if len(file) - at < 4:
            return 1
        length, kind = u16(file, at), u16(file, at + 2)
        if self.kind_fault(kind):
            return 2
        if kind > TASK and self.missing():
            return 6
        if length != BODY[kind]:
            return 3
        if len(file) - at - 4 < length:
            return 1
        self.kind = kind
        take = {SYSTEM: self.system, TASK: self.task, TRANSITION: self.transition, VECTOR: self.vector}
        return take[kind](*file[at + 4 : at + 4 + length])


def read_table(file):
    table, at = Table(), 0
    while at < len(file):
        answer = table.record(file, at)
        if answer:
            return answer, at, ""
        at += 4 + BODY[table.kind]
    if table.missing():
        return 6, len(file), ""
    return 0, at, holds(table.tasks, table.gates, len(table.moves), len(table.vectors))


def delivery_record(file, at):
    if len(file) - at < 4:
        return 1
    if u16(file, at + 2) != DELIVERY:
        return 2
    if u16(file, at) != BODY[DELIVERY]:
        return 3
    return 1 if len(file) - at < 6 else 0


def read_schedule(file):
    if len(file) > 60000:
        return 7, 60000, ""
    for at in range(0, len(file), 6):
        answer = delivery_record(file, at)
        if answer:
            return answer, at, ""
    return 0, len(file), deliveries(len(file) // 6)


def holds(tasks, gates, transitions, vectors):
    return f" tasks {tasks} gates {gates} transitions {transitions} vectors {vectors}"


def deliveries(count):
    return f" deliveries {count}"


# The records.


def record(kind, *body, length=None):
    return struct.pack("<HH", len(body) if length is None else length, kind) + bytes(body)


def system(tasks, gates):
    return record(SYSTEM, tasks, gates)


def task(number, states, start):
    return record(TASK, number, states, start)


def move(number, start, gate, end):
    return record(TRANSITION, number, start, gate, end)


def vector(gate, mask):
    return record(VECTOR, gate, mask % 256, mask // 256)


def delivery(start, end):
    return record(DELIVERY, start, end)


def tasks(count, states=1):
    return b"".join(task(t, states, 0) for t in range(count))


def vectors(gate, masks):
    return b"".join(vector(gate, m) for m in masks)


# The cases.

cases = []


def add(tag, name, file, expected=None, length=None):
    """A case; `expected` is (answer, place, rest of the line) where it is written by hand."""
    length = len(file) if length is None else length
    whole = (file * (length // max(1, len(file)) + 1))[:length]
    found = (read_table if tag == "T" else read_schedule)(whole)
    assert expected is None or expected == found, (name, expected, found)
    assert len(whole) == length <= ROOM and len(name) < 256 and " " not in name
    cases.append((tag, name, file, length, found))


def refuse(name, file, answer, place, length=None):
    add("T", name, file, (answer, place, ""), length)


def accept(name, file, place, *counts):
    add("T", name, file, (0, place, holds(*counts)))


def refuse_schedule(name, file, answer, place, length=None):
    add("S", name, file, (answer, place, ""), length)


def accept_schedule(name, file, place, count, length=None):
    add("S", name, file, (0, place, deliveries(count)), length)


E = bytes.fromhex(
    "020001000302 03000200000100 03000200010200 03000200020100 0400030000000000 0400030001000001"
    "0400030001000101 0400030002000100 03000400000300 03000400010600"
)
HEADS = (0, 6, 13, 20, 27, 35, 43, 51, 59, 66)  # where E's ten records begin
RUN = b"".join(
    delivery(a, b)
    for a, b in (
        (0, 16), (1, 16), (1, 17), (2, 17), (16, 0), (17, 1), (0, 1), (1, 2), (2, 1), (1, 0), (1, 16), (2, 17), (2, 17)
    )
)


def put(file, at, *values):
    return file[:at] + bytes(values) + file[at + len(values) :]


def record_of_e(i):
    return E[HEADS[i] : (HEADS + (len(E),))[i + 1]]


def table_e():
    accept("table_e", E, 73, 3, 2, 4, 2)
    refuse("empty_file", b"", 6, 0)
    refuse("three_bytes", E[:3], 1, 0)
    refuse("e_with_last_mask_0", put(E, 71, 0), 4, 66)
    refuse("e_with_last_mask_8", put(E, 71, 8), 4, 66)
    refuse("e_without_its_third_task", E[:20] + E[27:], 6, 20)
    accept("e_without_transitions", E[:27] + E[59:], 41, 3, 2, 0, 2)
    accept("e_without_vectors", E[:59], 59, 3, 2, 4, 0)
    accept("e_with_tasks_alone", E[:27], 27, 3, 2, 0, 0)
    refuse("e_without_its_system_record", E[6:], 2, 0)
    refuse("a_schedule_as_a_table", RUN, 2, 0)


def eight_vectors():
    four = system(4, 2) + tasks(4)  # 34 bytes; a vector has 7
    eight = four + vectors(0, range(1, 9))
    accept("eight_vectors_at_a_gate", eight, 90, 4, 2, 0, 8)
    accept("eight_vectors_at_each_of_two_gates", eight + vectors(1, range(8, 0, -1)), 146, 4, 2, 0, 16)
    refuse("nine_vectors_at_a_gate", eight + vector(0, 9), 7, 90)
    refuse("nine_vectors_at_the_second_gate", eight + vectors(1, range(1, 10)), 7, 146)
    refuse("ninth_vector_that_descends", eight + vector(1, 1) + vector(0, 9), 7, 97)
    refuse("ninth_vector_that_repeats", eight + vector(0, 1), 7, 90)
    refuse("ninth_vector_that_descends_and_repeats", eight + vector(1, 1) + vector(0, 1), 7, 97)
    refuse("eighth_vector_that_descends", eight[:83] + vector(1, 1) + vector(0, 9), 5, 90)
    refuse("ninth_vector_with_mask_0", eight + vector(0, 0), 4, 90)
    refuse("ninth_vector_with_an_absent_task", eight + vector(0, 16), 4, 90)
    refuse("ninth_vector_cut", (eight + vector(0, 9))[:-1], 1, 90)


def order_of_vectors():
    four = system(4, 2) + tasks(4)
    refuse("repeated_mask", four + vectors(0, (3, 3)), 5, 41)
    refuse("repeated_mask_not_adjacent", four + vectors(0, (3, 5, 3)), 5, 48)
    refuse("repeated_mask_last_of_eight", four + vectors(0, (1, 2, 3, 4, 5, 6, 7, 1)), 5, 83)
    refuse("repeated_mask_at_the_second_gate", four + vector(0, 5) + vectors(1, (3, 5, 3)), 5, 55)
    accept("same_mask_at_two_gates", four + vector(0, 3) + vector(1, 3), 48, 4, 2, 0, 2)
    accept("masks_descending", four + vectors(0, (15, 7, 1)), 55, 4, 2, 0, 3)
    accept("vectors_at_the_second_gate_alone", four + vector(1, 3), 41, 4, 2, 0, 1)
    accept("one_task_vectors", four + vectors(0, (1, 2, 4, 8)), 62, 4, 2, 0, 4)
    refuse("gates_of_vectors_descend", four + vector(1, 3) + vector(0, 5), 5, 41)
    refuse("gates_of_vectors_descend_and_mask_repeats", four + vector(0, 3) + vector(1, 3) + vector(0, 3), 5, 48)


def order_of_tasks():
    three = E[:27]
    refuse("task_too_many_first_number", three + task(0, 1, 0) + E[27:], 5, 27)
    refuse("task_too_many_last_number", three + task(2, 1, 0) + E[27:], 5, 27)
    refuse("task_too_many_out_of_range", three + task(3, 1, 0) + E[27:], 4, 27)
    refuse("task_too_many_with_17_states", three + task(0, 17, 0) + E[27:], 4, 27)
    refuse("task_too_many_at_the_end", three + task(0, 1, 0), 5, 27)
    refuse("task_1_first", system(2, 1) + task(1, 1, 0) + task(0, 1, 0), 5, 6)
    refuse("task_0_twice", system(2, 1) + task(0, 1, 0) * 2, 5, 13)
    refuse("task_left_out", system(3, 1) + task(0, 1, 0) + task(2, 1, 0), 5, 13)
    refuse("task_that_is_not_the_next_with_a_bad_start", system(2, 1) + task(1, 1, 1), 4, 6)


def order_of_transitions():
    two = system(2, 2) + tasks(2, states=2)  # 20 bytes; a transition has 8
    refuse("transitions_descend_by_task", two + move(1, 0, 0, 0) + move(0, 1, 1, 0), 5, 28)
    refuse("transitions_descend_by_from", two + move(0, 1, 0, 0) + move(0, 0, 1, 0), 5, 28)
    refuse("transitions_descend_by_gate", two + move(0, 0, 1, 0) + move(0, 0, 0, 1), 5, 28)
    refuse("transition_twice", two + move(0, 0, 0, 1) * 2, 5, 28)
    refuse("transition_twice_to_a_higher_state", two + move(0, 0, 0, 0) + move(0, 0, 0, 1), 5, 28)
    refuse("transition_twice_to_a_lower_state", two + move(0, 0, 0, 1) + move(0, 0, 0, 0), 5, 28)
    refuse("transition_twice_not_adjacent", two + move(0, 0, 0, 0) + move(1, 0, 0, 0) + move(0, 0, 0, 0), 5, 36)
    refuse("transition_before_the_first", two + move(0, 0, 1, 0) + move(1, 0, 0, 0) + move(0, 0, 0, 0), 5, 36)
    accept("transitions_ascend_by_task_alone", two + move(0, 1, 1, 0) + move(1, 0, 0, 0), 36, 2, 2, 2, 0)
    accept("transitions_ascend_by_from_alone", two + move(0, 0, 1, 0) + move(0, 1, 0, 0), 36, 2, 2, 2, 0)
    accept("transitions_ascend_by_gate_alone", two + move(0, 0, 0, 1) + move(0, 0, 1, 0), 36, 2, 2, 2, 0)
    accept("self_loops", two + move(0, 0, 0, 0) + move(0, 1, 0, 1), 36, 2, 2, 2, 0)


def kinds():
    refuse("second_system_record", E[:6] + E, 2, 6)
    refuse("second_system_record_after_the_tasks", E[:27] + E[:6] + E[27:], 2, 27)
    refuse("second_system_record_at_the_end", E + E[:6], 2, 73)
    refuse("second_system_record_out_of_range", E[:6] + system(0, 17), 2, 6)
    refuse("task_after_a_transition", E[:35] + task(0, 1, 0) + E[35:], 2, 35)
    refuse("task_after_a_vector", E + task(0, 1, 0), 2, 73)
    refuse("transition_after_a_vector", E[:66] + move(2, 0, 1, 0) + E[66:], 2, 66)
    refuse("transition_after_a_vector_with_a_wrong_length", E + record(TRANSITION, 2, 0, 1), 2, 73)
    refuse("delivery_in_a_table", E[:27] + delivery(0, 16) + E[27:], 2, 27)
    refuse("kind_257_for_the_system_record", put(E, 2, 1, 1), 2, 0)
    refuse("kind_257_for_the_first_transition", put(E, 29, 1, 1), 2, 27)
    refuse("kind_259_for_the_first_transition", put(E, 29, 3, 1), 2, 27)
    refuse("kind_260_for_the_last_vector", put(E, 68, 4, 1), 2, 66)
    refuse("kind_65535", put(E, 29, 255, 255), 2, 27)


def cuts():
    head, body = E[:69], E[:72]
    refuse("head_cut", head, 1, 66)
    refuse("head_cut_with_a_wrong_kind", put(head, 68, 9), 1, 66)
    refuse("body_cut", body, 1, 66)
    refuse("body_cut_with_a_wrong_kind", put(body, 68, 9), 2, 66)
    refuse("body_cut_with_a_lower_length", put(body, 66, 2), 3, 66)
    refuse("body_cut_with_a_higher_length", put(body, 66, 4), 3, 66)
    refuse("body_cut_with_a_wrong_kind_and_length", put(body, 66, 2, 0, 9), 2, 66)
    refuse("body_cut_with_a_gate_out_of_range", put(body, 70, 2), 1, 66)
    refuse("body_absent", E[:70], 1, 66)
    refuse("body_absent_with_a_wrong_kind", put(E[:70], 68, 0), 2, 66)
    refuse("body_absent_with_a_wrong_length", put(E[:70], 66, 0), 3, 66)
    refuse("system_body_cut", E[:5], 1, 0)
    refuse("system_body_cut_with_a_wrong_kind", put(E[:5], 2, 2), 2, 0)
    refuse("system_body_cut_with_a_wrong_length", put(E[:5], 0, 1), 3, 0)
    refuse("task_body_cut_with_a_wrong_length", put(E[:12], 6, 2), 3, 6)
    refuse("transition_body_cut_with_a_wrong_length", put(E[:34], 27, 3), 3, 27)


def ranges_of_counts():
    for n in (1, 16):
        accept(f"{n}_tasks", system(n, 1) + tasks(n), 6 + 7 * n, n, 1, 0, 0)
        accept(f"{n}_gates", system(1, n) + tasks(1), 13, 1, n, 0, 0)
        accept(f"{n}_states", system(1, 1) + task(0, n, 0), 13, 1, 1, 0, 0)
    for n in (0, 17, 255):
        refuse(f"{n}_tasks", system(n, 1) + tasks(n), 4, 0)
        refuse(f"{n}_gates", system(1, n) + tasks(1), 4, 0)
        refuse(f"{n}_states", system(1, 1) + task(0, n, 0), 4, 6)


def ranges_of_tasks_and_transitions():
    two = system(2, 3) + task(0, 2, 0) + task(1, 3, 0)  # 20 bytes
    accept("task_number_below_the_count", two, 20, 2, 3, 0, 0)
    refuse("task_number_at_the_count", two[:13] + task(2, 3, 0), 4, 13)
    refuse("task_number_255", two[:13] + task(255, 3, 0), 4, 13)
    accept("start_below_the_states", two[:13] + task(1, 3, 2), 20, 2, 3, 0, 0)
    refuse("start_at_the_states", two[:13] + task(1, 3, 3), 4, 13)
    accept("start_15_of_16_states", two[:13] + task(1, 16, 15), 20, 2, 3, 0, 0)
    refuse("start_16_of_16_states", two[:13] + task(1, 16, 16), 4, 13)
    for name, bad in (("task", (2, 0, 0, 0)), ("from", (1, 3, 0, 0)), ("gate", (1, 0, 3, 0)), ("to", (1, 0, 0, 3))):
        below = tuple(value - 1 if value in (2, 3) else value for value in bad)
        accept(f"transition_with_{name}_below_its_bound", two + move(*below), 28, 2, 3, 1, 0)
        refuse(f"transition_with_{name}_at_its_bound", two + move(*bad), 4, 20)
        high = tuple(255 if value in (2, 3) else value for value in bad)
        refuse(f"transition_with_{name}_255", two + move(*high), 4, 20)
    refuse("from_below_the_states_of_another_task", two + move(0, 2, 0, 0), 4, 20)
    refuse("to_below_the_states_of_another_task", two + move(0, 0, 0, 2), 4, 20)
    refuse("transition_out_of_range_and_out_of_order", two + move(1, 0, 0, 0) + move(0, 0, 0, 2), 4, 28)


def ranges_of_vectors():
    three = system(3, 2) + tasks(3)  # 27 bytes
    accept("vector_gate_below_its_bound", three + vector(1, 1), 34, 3, 2, 0, 1)
    refuse("vector_gate_at_its_bound", three + vector(2, 1), 4, 27)
    refuse("vector_gate_255", three + vector(255, 1), 4, 27)
    refuse("mask_0", three + vector(0, 0), 4, 27)
    accept("mask_1", three + vector(0, 1), 34, 3, 2, 0, 1)
    accept("mask_of_all_three_tasks", three + vector(0, 7), 34, 3, 2, 0, 1)
    refuse("mask_of_the_first_absent_task", three + vector(0, 8), 4, 27)
    refuse("mask_of_a_present_and_an_absent_task", three + vector(0, 9), 4, 27)
    refuse("mask_256_of_three_tasks", three + vector(0, 256), 4, 27)
    refuse("mask_257_of_three_tasks", three + vector(0, 257), 4, 27)
    accept("mask_256_of_nine_tasks", system(9, 1) + tasks(9) + vector(0, 256), 76, 9, 1, 0, 1)
    refuse("mask_256_of_eight_tasks", system(8, 1) + tasks(8) + vector(0, 256), 4, 62)
    accept("mask_of_all_15_tasks", system(15, 1) + tasks(15) + vector(0, 0x7FFF), 118, 15, 1, 0, 1)
    refuse("mask_of_16_tasks_where_there_are_15", system(15, 1) + tasks(15) + vector(0, 0xFFFF), 4, 111)
    refuse("mask_of_the_sixteenth_task_of_15", system(15, 1) + tasks(15) + vector(0, 0x8000), 4, 111)
    accept("mask_of_all_16_tasks", system(16, 1) + tasks(16) + vector(0, 0xFFFF), 125, 16, 1, 0, 1)
    accept("mask_of_the_sixteenth_task", system(16, 1) + tasks(16) + vector(0, 0x8000), 125, 16, 1, 0, 1)
    refuse("vector_out_of_range_and_out_of_order", three + vector(1, 1) + vector(0, 8), 4, 34)


def missing_records():
    one = system(2, 2) + task(0, 1, 0)  # 13 bytes, a task is missing
    refuse("system_record_alone", E[:6], 6, 6)
    refuse("last_task_missing_at_the_end", one, 6, 13)
    refuse("transition_before_any_task", E[:6] + move(0, 0, 0, 0), 6, 6)
    refuse("vector_before_any_task", E[:6] + vector(0, 1), 6, 6)
    refuse("transition_before_the_last_task", one + move(0, 0, 0, 0) + task(1, 1, 0), 6, 13)
    refuse("vector_before_the_last_task", one + vector(0, 1) + task(1, 1, 0), 6, 13)
    refuse("early_transition_with_a_wrong_length", one + record(TRANSITION, 0, 0, 0), 6, 13)
    refuse("early_vector_with_a_wrong_length", one + record(VECTOR, 0, 1), 6, 13)
    refuse("early_transition_with_its_body_absent", one + move(0, 0, 0, 0)[:4], 6, 13)
    refuse("early_transition_with_its_head_cut", one + move(0, 0, 0, 0)[:3], 1, 13)
    refuse("early_vector_with_mask_0", one + vector(0, 0), 6, 13)
    refuse("transition_first", move(0, 0, 0, 0) + E, 2, 0)
    refuse("early_kind_5", one + delivery(0, 16), 2, 13)


def more_after_a_table():
    refuse("one_byte_after_e", E + b"\x03", 1, 73)
    refuse("three_bytes_after_e", E + b"\xff\xff\xff", 1, 73)
    refuse("four_zeros_after_e", E + bytes(4), 2, 73)
    accept("a_vector_after_e", E + vector(1, 5), 80, 3, 2, 4, 3)
    refuse("a_vector_of_a_lower_gate_after_e", E + vector(0, 5), 5, 73)
    refuse("a_transition_after_e", E + move(2, 0, 1, 0), 2, 73)
    refuse("e_twice", E, 2, 73, length=146)
    refuse("e_over_and_over", E, 2, 73, length=ROOM)
    refuse("zeros", b"\0", 2, 0, length=ROOM)


def largest_table():
    triples = [(t, s, g) for t in range(16) for s in range(16) for g in range(16)]
    moves = b"".join(move(t, s, g, (s + g) % 16) for t, s, g in triples)
    masks = b"".join(vectors(g, (1, 2, 4, 8, 0x8000, 0xFFFF, 0x5555, 1 + g * 256 + 32)) for g in range(16))
    table = system(16, 16) + tasks(16, states=16) + moves + masks
    accept("the_largest_table", table, 33782, 16, 16, 4096, 128)
    refuse("the_largest_table_and_a_byte", table + b"\x02", 1, 33782)
    refuse("the_largest_table_and_zeros_up_to_40000", table + bytes(40000 - 33782), 2, 33782)
    refuse("the_largest_table_and_zeros_up_to_45000", table + bytes(45000 - 33782), 2, 33782)


def prefixes_of_e():
    for n in range(len(E) + 1):
        add("T", f"prefix_of_e_of_{n}", E[:n])


def kinds_in_e():
    for i, at in enumerate(HEADS):
        for kind in range(8):
            add("T", f"kind_{kind}_at_record_{i}_of_e", put(E, at + 2, kind))


def lengths_in_e():
    for i, at in enumerate(HEADS):
        whole = record_of_e(i)
        own, kind, body = whole[0], whole[2], whole[4:]
        for length in sorted({own - 1, own + 1, 0, 258, own + 256}):
            stated = record(kind, *body, length=length)
            refuse(f"length_{length}_at_record_{i}_of_e", E[:at] + stated + E[at + 4 + own :], 3, at)
        refuse(f"short_body_at_record_{i}_of_e", E[:at] + record(kind, *body[:-1]) + E[at + 4 + own :], 3, at)
        refuse(f"long_body_at_record_{i}_of_e", E[:at] + record(kind, *body, 0) + E[at + 4 + own :], 3, at)


def schedules():
    accept_schedule("empty_schedule", b"", 0, 0)
    accept_schedule("one_delivery", RUN[:6], 6, 1)
    accept_schedule("thirteen_deliveries", RUN, 78, 13)
    accept_schedule("endpoints_255", delivery(255, 255), 6, 1)
    accept_schedule("endpoints_equal", delivery(0, 0) + delivery(16, 17), 12, 2)
    refuse_schedule("a_table_as_a_schedule", E, 2, 0)
    refuse_schedule("schedule_with_its_last_head_cut", RUN[:75], 1, 72)
    refuse_schedule("schedule_with_its_last_body_cut", RUN[:77], 1, 72)
    refuse_schedule("schedule_with_its_last_body_absent", RUN[:76], 1, 72)
    refuse_schedule("schedule_cut_with_a_wrong_kind", put(RUN[:77], 74, 4), 2, 72)
    refuse_schedule("schedule_cut_with_a_lower_length", put(RUN[:77], 72, 1), 3, 72)
    refuse_schedule("schedule_cut_with_a_higher_length", put(RUN[:77], 72, 3), 3, 72)
    refuse_schedule("schedule_cut_with_a_wrong_kind_and_length", put(RUN[:77], 72, 1, 0, 4), 2, 72)
    refuse_schedule("schedule_and_three_bytes", RUN + b"\x02\x00\x05", 1, 78)
    refuse_schedule("schedule_kind_261", put(RUN, 8, 5, 1), 2, 6)
    refuse_schedule("schedule_kind_1280", put(RUN, 8, 0, 5), 2, 6)
    refuse_schedule("schedule_kind_and_length_wrong", put(RUN, 6, 3, 0, 4), 2, 6)


def long_schedules():
    one, table = delivery(0, 16), b"\x02\x00\x01\x00\x03\x02"
    accept_schedule("schedule_of_59994_bytes", one, 59994, 9999, length=59994)
    refuse_schedule("schedule_of_59999_bytes", one, 1, 59994, length=59999)
    accept_schedule("schedule_of_60000_bytes", one, 60000, 10000, length=60000)
    refuse_schedule("schedule_of_60000_bytes_of_a_wrong_kind", table, 2, 0, length=60000)
    refuse_schedule("schedule_of_60001_bytes", one, 7, 60000, length=60001)
    refuse_schedule("schedule_of_60006_bytes", one, 7, 60000, length=60006)
    refuse_schedule("schedule_of_60001_bytes_of_a_wrong_kind", table, 7, 60000, length=60001)
    refuse_schedule("schedule_of_65536_bytes", one, 7, 60000, length=ROOM)
    refuse_schedule("schedule_of_65536_bytes_of_a_wrong_kind", table, 7, 60000, length=ROOM)
    refuse_schedule("schedule_of_65536_zeros", b"\0", 7, 60000, length=ROOM)


def families_of_schedules():
    for n in range(13):
        add("S", f"prefix_of_a_schedule_of_{n}", RUN[:n])
    for at in (0, 6, 72):
        for kind in range(8):
            add("S", f"kind_{kind}_at_delivery_{at // 6}", put(RUN, at + 2, kind))
        for length in (0, 1, 3, 258):
            stated = record(DELIVERY, *RUN[at + 4 : at + 6], length=length)
            refuse_schedule(f"length_{length}_at_delivery_{at // 6}", RUN[:at] + stated + RUN[at + 6 :], 3, at)
        short, long = record(DELIVERY, 0), record(DELIVERY, 0, 16, 0)
        refuse_schedule(f"short_body_at_delivery_{at // 6}", RUN[:at] + short + RUN[at + 6 :], 3, at)
        refuse_schedule(f"long_body_at_delivery_{at // 6}", RUN[:at] + long + RUN[at + 6 :], 3, at)


def stored(tag, name, unit, length):
    return struct.pack("<cB", tag.encode(), len(name)) + name.encode() + struct.pack("<II", length, len(unit)) + unit


def main():
    assert len(E) == 73 and all(E[at + 2] == k for at, k in zip(HEADS, (1, 2, 2, 2, 3, 3, 3, 3, 4, 4)))
    for family in (
        table_e, eight_vectors, order_of_vectors, order_of_tasks, order_of_transitions, kinds, cuts, ranges_of_counts,
        ranges_of_tasks_and_transitions, ranges_of_vectors, missing_records, more_after_a_table, largest_table,
        prefixes_of_e, kinds_in_e, lengths_in_e, schedules, long_schedules, families_of_schedules,
    ):
        family()
    names = [name for _, name, _, _, _ in cases]
    assert len(set(names)) == len(names)
    lines = [f"{name}: answer {answer} at {place}{rest}\n" for _, name, _, _, (answer, place, rest) in cases]
    crate = pathlib.Path(__file__).resolve().parent.parent / "crates" / "read_cases"
    given = b"".join(stored(tag, name, unit, length) for tag, name, unit, length, _ in cases)
    assert len(given) < INPUT
    (crate / "stdin").write_bytes(given)
    (crate / "stdout").write_text("".join(lines) + f"{len(cases)} cases\n", newline="\n")
    print(f"{len(cases)} cases, {len(given)} bytes")


main()
