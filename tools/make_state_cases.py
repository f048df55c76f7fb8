#!/usr/bin/env python3
"""Writes crates/state_cases/stdin, the cases that program state_cases runs, and stdout, what it has to print.

Each case is a line that starts fresh by a table, has had some deliveries, and then has parts of its state or table set
by hand; on it one delivery is made. The number expected of each is written here by hand, from the paper, and nothing
computes it. A delivery that is done (0) changes the state, since it takes a message; a refused one changes nothing."""
import pathlib
import struct

INPUT = 65536  # the longest file of cases that the program takes


# Table files.


def record(kind, *body):
    return struct.pack("<HH", len(body), kind) + bytes(body)


def table(tasks, gates, states, transitions=(), vectors=()):
    """Of as many tasks as `states` has counts, all starting at 0; a vector is a gate and a mask below 256."""
    file = record(1, tasks, gates)
    file += b"".join(record(2, t, n, 0) for t, n in enumerate(states))
    file += b"".join(record(3, *transition) for transition in transitions)
    return file + b"".join(record(4, g, mask, 0) for g, mask in vectors)


# The paper's table E and its schedule.
E = table(3, 2, [1, 2, 1], [(0, 0, 0, 0), (1, 0, 0, 1), (1, 0, 1, 1), (2, 0, 1, 0)], [(0, 3), (1, 6)])
SCHEDULE = [(0, 16), (1, 16), (1, 17), (2, 17), (16, 0), (17, 1), (0, 1), (1, 2), (2, 1), (1, 0), (1, 16), (2, 17), (2, 17)]

# Table F: task 0 is always ready at each of three gates and task 1 at gate 0; a vector of both at gate 0, and of task 0
# alone at the two others. Gate 0 holds task 0, the two others' requests wait there, and task 1 decides.
F = table(2, 3, [1, 1], [(0, 0, 0, 0), (0, 0, 1, 0), (0, 0, 2, 0), (1, 0, 0, 0)], [(0, 3), (1, 1), (2, 1)])
SCHEDULE_F = [(0, 16), (1, 16), (16, 0), (0, 17), (17, 0), (0, 18), (18, 0), (0, 1)]

# 16 tasks of one state and 16 gates, with no transition; the same with eight vectors of one task at a gate; one of each.
WIDEST = table(16, 16, [1] * 16)
EIGHT_FIRST = table(16, 16, [1] * 16, [], [(0, 1 << i) for i in range(8)])
EIGHT_LAST = table(16, 16, [1] * 16, [], [(15, 1 << i) for i in range(8)])
SMALLEST = table(1, 1, [1])

# A refused file: the table is the empty one, and Fresh gives the empty state.
NOTHING = b""

# Messages, modes and edits. An edit is 16 bytes.

READY = (0, 0, 0)


def lock(gate, vector):
    return (1, gate, vector)


def commit(gate):
    return (2, gate, 0)


def abort(gate):
    return (3, gate, 0)


FREE = (0, 0, 0)


def held(gate, vector):
    return (1, gate, vector)


IDLE = (0, 0)


def dealing(vector):
    return (1, vector)


def edit(part, *numbers):
    return bytes((part,) + numbers).ljust(16, b"\0")


def low_high(number):
    return number % 256, number // 256


def state(t, x):
    return edit(1, t, x)


def mode(t, to):
    return edit(2, t, *to)


def waiting_count(t, n):
    return edit(3, t, n)


def waiting(t, place, gate, vector):
    return edit(4, t, place, gate, vector)


def up(t, g, count, *messages):
    """The channel from task t to gate g; places that aren't named hold the filler."""
    messages += (READY,) * (3 - len(messages))
    return edit(5, t, g, count, *messages[0], *messages[1], *messages[2])


def across(t, b, count, message):
    return edit(6, t, b, count, *message)


def offers(g, mask):
    return edit(7, g, *low_high(mask))


def deal(g, to):
    return edit(8, g, *to)


def down(g, b, count, message):
    return edit(9, g, b, count, *message)


def logged(n):
    return edit(10, 0, *low_high(n))


def counts(tasks, gates):
    return edit(11, tasks, gates)


def task(t, states, start):
    return edit(12, t, states, start)


def cell(t, x, g, content):
    """One more than the state that task t goes to from state x at gate g."""
    return edit(13, *low_high((t * 16 + x) * 16 + g), content)


def vectors(g, n):
    return edit(14, g, n)


def mask(g, v, tasks):
    return edit(15, g * 8 + v, *low_high(tasks))


# The cases.

cases = []


def case(name, answer, ends, *edits, file=E, schedule=(), size=8):
    cases.append((name, answer, ends, edits, file, schedule, size))


def after(n, name, answer, ends, *edits, **more):
    """On E after the first n deliveries of its schedule."""
    case(name, answer, ends, *edits, schedule=SCHEDULE[:n], **more)


def decide(name, answer, *edits, **more):
    """On E before its eighth delivery: tasks 0 and 1 are held, a request waits at task 1, both gates deal, and the only
    message is the LOCK from task 1 to task 2. It is delivered."""
    after(7, name, answer, (1, 2), *edits, **more)


def two_entries(name, answer, *edits, **more):
    """On F after its schedule: the COMMIT for task 0, whose list has two requests that it decides itself."""
    case(name, answer, (1, 0), *edits, file=F, schedule=SCHEDULE_F, **more)


def first(name, answer, file, *edits):
    """From task 0 to gate 0 of a line where nothing was sent."""
    case(name, answer, (0, 16), *edits, file=file)


def good():
    after(0, "ready_at_a_gate", 0, (0, 16))
    after(1, "ready_that_completes_a_vector", 0, (1, 16))
    after(4, "lock_at_the_lowest_task", 0, (16, 0))
    after(6, "lock_at_a_held_task", 0, (0, 1))
    after(7, "lock_at_the_highest_task", 0, (1, 2))
    after(8, "commit_at_a_task", 0, (2, 1))
    after(9, "abort_at_a_task", 0, (1, 0))
    after(10, "abort_at_a_gate", 0, (1, 16))
    after(11, "commit_at_a_gate", 0, (2, 17))
    two_entries("commit_with_two_locks_waiting", 0)


def no_channel():
    after(7, "absent_task_to_a_gate", 8, (3, 16))
    after(7, "absent_task_to_a_task", 8, (3, 0))
    after(7, "gate_to_an_absent_task", 8, (16, 3))
    after(7, "task_to_an_absent_task", 8, (0, 3))
    after(7, "task_15_to_a_gate", 8, (15, 16))
    after(7, "gate_to_task_15", 8, (16, 15))
    after(7, "absent_gate_to_a_task", 8, (18, 0))
    after(7, "task_to_an_absent_gate", 8, (0, 18))
    after(7, "gate_15_to_a_task", 8, (31, 0))
    after(7, "task_to_gate_15", 8, (0, 31))
    after(7, "endpoint_32_to_a_task", 8, (32, 0))
    after(7, "task_to_endpoint_32", 8, (0, 32))
    after(7, "endpoint_255_to_a_gate", 8, (255, 16))
    after(7, "gate_to_endpoint_255", 8, (16, 255))
    after(7, "gate_to_another_gate", 8, (16, 17))
    after(7, "gate_to_an_absent_gate", 8, (16, 18))
    after(7, "gate_to_itself", 8, (16, 16))
    after(7, "task_to_itself", 8, (1, 1))
    after(7, "absent_task_to_itself", 8, (3, 3))
    after(7, "endpoint_255_to_itself", 8, (255, 255))


def channel_empty():
    after(7, "empty_from_a_task_to_a_gate", 9, (0, 16))
    after(7, "empty_from_a_gate_to_a_task", 9, (16, 0))
    after(7, "empty_to_a_higher_task", 9, (0, 1))
    after(7, "empty_to_a_lower_task", 9, (2, 1))
    after(0, "empty_from_a_gate_when_fresh", 9, (16, 0))


def log_full():
    decide("log_of_no_byte", 10, size=0)
    decide("log_of_one_byte", 10, size=1)
    decide("log_of_two_bytes", 0, size=2)
    decide("log_of_two_bytes_full", 10, logged(1), size=2)
    decide("log_of_three_bytes_full", 10, logged(1), size=3)
    decide("log_of_seven_bytes_with_room", 0, logged(2), size=7)
    decide("log_of_seven_bytes_full", 10, logged(3), size=7)
    decide("log_of_eight_bytes_with_room", 0, logged(3), size=8)
    decide("log_of_eight_bytes_full", 10, logged(4), size=8)
    after(6, "no_entry_and_a_full_log", 0, (0, 1), size=0)
    two_entries("neither_of_two_entries_fits", 10, size=2)
    two_entries("one_of_two_entries_fits", 10, size=4)
    two_entries("one_of_two_entries_fits_and_a_byte", 10, size=5)
    two_entries("two_of_two_entries_fit", 0, size=6)


def order():
    unsound = state(0, 1)
    after(7, "unsound_and_no_channel", 11, (3, 16), unsound)
    after(7, "unsound_and_gate_to_gate", 11, (16, 17), unsound)
    after(7, "unsound_and_empty", 11, (0, 16), unsound)
    after(7, "unsound_and_excluded", 11, (2, 1), unsound, across(2, 1, 1, commit(0)))
    after(7, "unsound_and_log_full", 11, (1, 2), unsound, size=1)
    after(7, "log_count_and_no_channel", 11, (3, 16), logged(5))
    # Where there is no channel there is no message either.
    after(0, "no_channel_and_empty", 8, (2, 2))
    # Were the filler taken for a message, a LOCK would go into a full channel, or a READY come to a task.
    after(1, "empty_and_excluded_at_a_gate", 9, (1, 16), down(0, 0, 1, lock(0, 0)), up(1, 0, 0))
    after(7, "empty_and_excluded_at_a_task", 9, (0, 1), waiting_count(1, 16))
    decide("excluded_and_log_full", 12, up(2, 1, 3, READY, abort(1), READY), size=1)
    full_at_the_second = up(0, 2, 2, READY, abort(2))
    two_entries("excluded_at_the_second_entry_and_log_full", 12, full_at_the_second, size=2)
    two_entries("excluded_at_the_second_entry_and_room_for_one", 12, full_at_the_second, size=4)


def unsound_counts():
    first("the_empty_table", 11, NOTHING)
    first("no_task", 11, NOTHING, counts(0, 1))
    first("no_gate", 11, NOTHING, counts(1, 0), task(0, 1, 0))
    first("one_task_and_one_gate", 9, SMALLEST)
    first("sixteen_tasks_and_gates", 9, WIDEST)
    first("seventeen_tasks", 11, WIDEST, counts(17, 16))
    first("seventeen_gates", 11, WIDEST, counts(16, 17))
    first("tasks_255", 11, WIDEST, counts(255, 16))
    first("gates_255", 11, WIDEST, counts(16, 255))


def unsound_table_tasks():
    first("task_of_no_state", 11, WIDEST, task(15, 0, 0))
    decide("task_of_sixteen_states", 0, task(1, 16, 0))
    decide("task_of_seventeen_states", 11, task(1, 17, 0))
    decide("start_at_the_last_state", 0, task(1, 2, 1))
    decide("start_past_the_last_state", 11, task(1, 2, 2))
    decide("absent_task_with_a_state", 11, task(3, 1, 0))
    decide("absent_task_with_a_start", 11, task(3, 0, 1))
    decide("task_15_with_a_state", 11, task(15, 1, 0))


def unsound_transitions():
    decide("transition_within_all_counts", 0, cell(1, 1, 1, 2))
    decide("transition_to_a_missing_state", 11, cell(1, 1, 1, 3))
    decide("transition_to_state_254", 11, cell(1, 1, 0, 255))
    decide("transition_from_a_missing_state", 11, cell(1, 2, 1, 1))
    decide("transition_at_an_absent_gate", 11, cell(1, 1, 2, 1))
    decide("transition_of_an_absent_task", 11, cell(3, 0, 0, 1))
    decide("last_transition_of_all", 11, cell(15, 15, 15, 1))


def unsound_vectors():
    decide("second_vector_at_a_gate", 0, vectors(0, 2), mask(0, 1, 7))
    decide("mask_of_nobody", 11, vectors(0, 2), mask(0, 1, 0))
    decide("mask_of_an_absent_task", 11, vectors(0, 2), mask(0, 1, 8))
    decide("mask_of_present_tasks_and_task_15", 11, vectors(0, 2), mask(0, 1, 0x8001))
    decide("mask_of_another_gate", 0, vectors(0, 2), mask(0, 1, 6))
    decide("repeated_mask", 11, vectors(0, 2), mask(0, 1, 3))
    decide("repeated_mask_not_adjacent", 11, vectors(0, 3), mask(0, 1, 1), mask(0, 2, 3))
    first("eight_vectors_at_the_first_gate", 9, EIGHT_FIRST)
    first("nine_vectors_at_the_first_gate", 11, EIGHT_FIRST, vectors(0, 9))
    first("eight_vectors_at_the_last_gate", 9, EIGHT_LAST)
    first("nine_vectors_at_the_last_gate", 11, EIGHT_LAST, vectors(15, 9))
    first("vectors_255_at_the_last_gate", 11, EIGHT_LAST, vectors(15, 255))
    decide("vector_at_an_absent_gate", 11, vectors(2, 1), mask(2, 0, 3))
    decide("mask_above_the_count", 11, mask(0, 1, 1))
    decide("mask_in_a_gate's_last_place", 11, mask(0, 7, 1))
    decide("mask_at_an_absent_gate", 11, mask(2, 0, 1))
    decide("mask_in_the_last_place_of_all", 11, mask(15, 7, 1))


def unsound_states_and_modes():
    decide("task_at_its_last_state", 0, state(1, 1))
    decide("task_past_its_last_state", 11, state(1, 2))
    decide("task_past_its_only_state", 11, state(0, 1))
    decide("task_at_state_255", 11, state(2, 255))
    decide("free_task_with_no_list", 0, mode(0, FREE))
    decide("free_task_with_a_list", 11, mode(1, FREE))
    decide("held_below_its_vector", 11, mode(0, held(1, 0)))
    decide("held_above_its_vector", 11, mode(2, held(0, 0)))
    decide("held_as_the_highest_of_its_vector", 11, mode(1, held(0, 0)))
    decide("held_for_a_missing_vector", 11, mode(0, held(0, 1)))
    # Place 8 of gate 0 would be place 0 of gate 1, whose vector holds task 1 and a higher one.
    decide("held_for_vector_8", 11, mode(1, held(0, 8)))
    decide("held_by_an_absent_gate", 11, mode(0, held(2, 0)))
    decide("held_by_gate_255", 11, mode(0, held(255, 255)))


def unsound_waiting():
    # The list's filler is a request of gate 0 for its vector 0, and that may wait at task 1.
    decide("two_waiting", 0, waiting_count(1, 2), waiting(1, 1, 1, 0))
    decide("sixteen_waiting", 0, waiting_count(1, 16))
    decide("seventeen_waiting", 11, waiting_count(1, 17))
    decide("waiting_count_255", 11, waiting_count(1, 255))
    decide("waiting_for_a_missing_vector", 11, waiting(1, 0, 0, 1))
    decide("waiting_for_vector_8", 11, waiting(1, 0, 0, 8))
    decide("waiting_for_an_absent_gate", 11, waiting(1, 0, 2, 0))
    decide("waiting_for_a_vector_without_it", 11, waiting_count(0, 1), waiting(0, 0, 1, 0))
    decide("second_waiting_for_a_missing_vector", 11, waiting_count(1, 2), waiting(1, 1, 1, 1))
    decide("last_waiting_for_a_missing_vector", 11, waiting_count(1, 16), waiting(1, 15, 0, 1))
    decide("gate_in_an_empty_list", 11, waiting(2, 0, 1, 0))
    decide("vector_in_an_empty_list", 11, waiting(2, 0, 0, 1))
    decide("request_behind_the_list", 11, waiting(1, 1, 1, 0))
    decide("request_in_the_list's_last_place", 11, waiting(1, 15, 1, 0))


def unsound_gates():
    decide("offers_of_all_tasks", 0, offers(0, 7))
    decide("offers_of_an_absent_task", 11, offers(0, 8))
    decide("offers_of_present_tasks_and_task_15", 11, offers(0, 0x8001))
    decide("gate_idle_again", 0, deal(0, IDLE))
    decide("dealing_a_missing_vector", 11, deal(0, dealing(1)))
    decide("dealing_vector_8", 11, deal(0, dealing(8)))
    decide("dealing_vector_255", 11, deal(1, dealing(255)))


def unsound_absent():
    decide("absent_task_at_a_state", 11, state(3, 1))
    decide("task_15_at_a_state", 11, state(15, 1))
    decide("absent_task_held", 11, mode(3, held(0, 0)))
    decide("absent_task_with_a_list", 11, waiting_count(3, 1))
    decide("absent_task_with_a_request_in_its_list", 11, waiting(3, 0, 0, 1))
    decide("absent_task_sends_a_gate_ready", 11, up(3, 0, 1, READY))
    decide("absent_task_sends_a_gate_commit", 11, up(3, 0, 1, commit(0)))
    decide("absent_task_with_a_message_behind", 11, up(3, 0, 0, READY, READY, abort(0)))
    decide("absent_task_sends_a_task_commit", 11, across(3, 0, 1, commit(0)))
    decide("absent_task_sends_an_absent_task_lock", 11, across(3, 4, 1, lock(0, 0)))
    decide("task_sends_an_absent_task_lock", 11, across(0, 3, 1, lock(0, 0)))
    decide("gate_sends_an_absent_task_lock", 11, down(0, 3, 1, lock(0, 0)))
    decide("absent_gate_with_offers", 11, offers(2, 1))
    decide("gate_15_with_offers", 11, offers(15, 1))
    decide("absent_gate_dealing", 11, deal(2, dealing(0)))
    decide("absent_gate_sends_lock_of_its_own", 11, down(2, 0, 1, lock(2, 0)))
    decide("absent_gate_sends_lock_of_another", 11, down(2, 0, 1, lock(0, 0)))
    decide("absent_gate_with_a_message_behind", 11, down(2, 0, 0, lock(0, 0)))
    decide("task_sends_an_absent_gate_ready", 11, up(0, 2, 1, READY))
    decide("task_sends_an_absent_gate_commit", 11, up(0, 2, 1, commit(2)))


def unsound_log_count():
    decide("one_entry_in_no_byte", 11, logged(1), size=0)
    decide("one_entry_in_one_byte", 11, logged(1), size=1)
    decide("two_entries_in_three_bytes", 11, logged(2), size=3)
    decide("four_entries_in_seven_bytes", 11, logged(4), size=7)
    decide("five_entries_in_eight_bytes", 11, logged(5), size=8)
    decide("many_entries_in_eight_bytes", 11, logged(65535), size=8)


def unsound_gate_to_task():
    decide("gate_sends_lock", 0, down(0, 0, 1, lock(0, 0)))
    decide("gate_sends_ready", 11, down(0, 0, 1, READY))
    decide("gate_sends_commit", 11, down(0, 0, 1, commit(0)))
    decide("gate_sends_abort", 11, down(0, 0, 1, abort(0)))
    decide("gate_sends_two", 11, down(0, 0, 2, lock(0, 0)))
    decide("gate_sends_255", 11, down(0, 0, 255, lock(0, 0)))
    decide("lock_behind_what_a_gate_sent", 11, down(0, 0, 0, lock(0, 0)))
    decide("commit_behind_what_a_gate_sent", 11, down(0, 0, 0, commit(0)))
    decide("gate_sends_lock_to_its_highest_task", 0, down(0, 1, 1, lock(0, 0)))
    decide("gate_sends_lock_of_another_gate", 11, down(0, 1, 1, lock(1, 0)))
    decide("gate_sends_lock_of_an_absent_gate", 11, down(0, 1, 1, lock(2, 0)))
    decide("gate_sends_lock_for_a_missing_vector", 11, down(0, 1, 1, lock(0, 1)))
    decide("gate_sends_lock_for_vector_8", 11, down(0, 1, 1, lock(0, 8)))
    decide("gate_sends_lock_to_a_task_outside_its_vector", 11, down(0, 2, 1, lock(0, 0)))


def unsound_task_to_gate():
    decide("task_sends_three_kinds", 0, up(0, 0, 3, READY, commit(0), abort(0)))
    decide("task_sends_four", 11, up(0, 0, 4, READY, commit(0), abort(0)))
    decide("task_sends_four_readys", 11, up(0, 0, 4, READY, READY, READY))
    decide("task_sends_a_gate_lock_first", 11, up(0, 0, 1, lock(0, 0)))
    decide("task_sends_a_gate_lock_second", 11, up(0, 0, 2, READY, lock(0, 0)))
    decide("task_sends_a_gate_lock_third", 11, up(0, 0, 3, READY, READY, lock(0, 0)))
    decide("commit_of_another_gate_first", 11, up(0, 0, 1, commit(1)))
    decide("commit_of_another_gate_second", 11, up(0, 0, 2, READY, commit(1)))
    decide("commit_of_another_gate_third", 11, up(0, 0, 3, READY, READY, commit(1)))
    decide("abort_of_another_gate_first", 11, up(0, 0, 1, abort(1)))
    decide("abort_of_another_gate_second", 11, up(0, 0, 2, READY, abort(1)))
    decide("abort_of_another_gate_third", 11, up(0, 0, 3, READY, READY, abort(1)))
    decide("commit_of_an_absent_gate_to_a_gate", 11, up(0, 0, 1, commit(2)))
    decide("commit_behind_none", 11, up(0, 0, 0, commit(0)))
    decide("commit_behind_one", 11, up(0, 0, 1, READY, commit(0)))
    decide("commit_behind_two", 11, up(0, 0, 2, READY, READY, commit(0)))
    decide("lock_behind_two", 11, up(0, 0, 2, READY, READY, lock(0, 0)))
    decide("abort_two_behind_one", 11, up(0, 0, 1, READY, READY, abort(0)))


def unsound_task_to_task():
    decide("higher_task_gets_lock", 0, across(0, 1, 1, lock(0, 0)))
    decide("higher_task_gets_lock_from_outside", 0, across(0, 1, 1, lock(1, 0)))
    decide("higher_task_gets_ready", 11, across(0, 1, 1, READY))
    decide("higher_task_gets_commit", 11, across(0, 1, 1, commit(0)))
    decide("higher_task_gets_abort", 11, across(0, 1, 1, abort(0)))
    decide("higher_task_gets_lock_for_a_missing_vector", 11, across(0, 1, 1, lock(0, 1)))
    decide("higher_task_gets_lock_for_vector_8", 11, across(0, 1, 1, lock(0, 8)))
    decide("higher_task_gets_lock_of_an_absent_gate", 11, across(0, 1, 1, lock(2, 0)))
    decide("higher_task_outside_the_vector_gets_lock", 11, across(0, 2, 1, lock(0, 0)))
    decide("higher_task_gets_two", 11, across(0, 1, 2, lock(0, 0)))
    decide("lock_behind_what_a_higher_task_gets", 11, across(0, 1, 0, lock(0, 0)))
    decide("lower_task_gets_commit", 0, across(1, 0, 1, commit(0)))
    decide("lower_task_gets_abort_of_another_gate", 0, across(1, 0, 1, abort(1)))
    decide("lower_task_gets_ready", 11, across(1, 0, 1, READY))
    decide("lower_task_gets_lock", 11, across(1, 0, 1, lock(0, 0)))
    decide("lower_task_gets_commit_of_an_absent_gate", 11, across(1, 0, 1, commit(2)))
    decide("lower_task_gets_abort_of_an_absent_gate", 11, across(1, 0, 1, abort(2)))
    decide("lower_task_gets_two", 11, across(1, 0, 2, commit(0)))
    decide("commit_behind_what_a_lower_task_gets", 11, across(1, 0, 0, commit(0)))
    decide("task_sends_itself_ready", 11, across(1, 1, 1, READY))
    decide("task_sends_itself_lock", 11, across(1, 1, 1, lock(0, 0)))
    decide("task_sends_itself_commit", 11, across(1, 1, 1, commit(0)))
    decide("task_sends_itself_abort", 11, across(1, 1, 1, abort(0)))
    decide("commit_behind_what_a_task_sent_itself", 11, across(1, 1, 0, commit(0)))


def excluded_results():
    # Task 0 is ready at gate 0.
    after(0, "commit_at_a_free_task", 12, (1, 0), across(1, 0, 1, commit(0)))
    after(0, "abort_at_a_free_task", 12, (1, 0), across(1, 0, 1, abort(0)))
    # Task 1 is held by gate 1 and ready at both, but in state 1 at none.
    after(7, "commit_of_its_gate_at_a_held_task", 0, (2, 1), across(2, 1, 1, commit(1)))
    after(7, "commit_of_another_gate_at_a_held_task", 12, (2, 1), across(2, 1, 1, commit(0)))
    after(7, "abort_of_its_gate_at_a_held_task", 0, (2, 1), across(2, 1, 1, abort(1)))
    after(7, "abort_of_another_gate_at_a_held_task", 12, (2, 1), across(2, 1, 1, abort(0)))
    after(7, "commit_at_a_task_with_no_transition", 12, (2, 1), state(1, 1), across(2, 1, 1, commit(1)))
    after(7, "abort_at_a_task_with_no_transition", 0, (2, 1), state(1, 1), across(2, 1, 1, abort(1)))
    after(0, "commit_at_an_idle_gate", 12, (0, 16), up(0, 0, 1, commit(0)))
    after(0, "abort_at_an_idle_gate", 12, (0, 16), up(0, 0, 1, abort(0)))
    # Gate 0 deals its vector of tasks 0 and 1; the sender need not be the highest.
    after(7, "commit_from_the_dealt_vector", 0, (0, 16), up(0, 0, 1, commit(0)))
    after(7, "commit_from_outside_the_dealt_vector", 12, (2, 16), up(2, 0, 1, commit(0)))
    after(7, "abort_from_the_dealt_vector", 0, (0, 16), up(0, 0, 1, abort(0)))
    after(7, "abort_from_outside_the_dealt_vector", 12, (2, 16), up(2, 0, 1, abort(0)))


def excluded_locks():
    # Gate 0 has the offer of task 0, and the READY of task 1 completes its vector.
    after(1, "lock_from_a_gate_to_a_full_channel", 12, (1, 16), down(0, 0, 1, lock(0, 0)))
    after(1, "lock_from_a_gate_beside_a_full_channel", 0, (1, 16), down(0, 1, 1, lock(0, 0)))
    # Gate 0 has a second vector, of task 2, which is offered while the first is dealt.
    second = (vectors(0, 2), mask(0, 1, 4), offers(0, 4))
    full = down(0, 2, 1, lock(0, 1))
    after(7, "lock_after_commit", 0, (0, 16), *second, up(0, 0, 1, commit(0)))
    after(7, "lock_after_abort", 0, (0, 16), *second, up(0, 0, 1, abort(0)))
    after(7, "lock_after_commit_to_a_full_channel", 12, (0, 16), *second, up(0, 0, 1, commit(0)), full)
    after(7, "lock_after_abort_to_a_full_channel", 12, (0, 16), *second, up(0, 0, 1, abort(0)), full)
    after(4, "lock_to_the_next_task_in_a_full_channel", 12, (16, 0), across(0, 1, 1, lock(0, 0)))
    after(4, "lock_to_the_next_task_beside_a_full_channel", 0, (16, 0), across(0, 2, 1, lock(1, 0)))


def excluded_sends():
    decide("commit_to_a_lower_task_in_a_full_channel", 12, across(2, 1, 1, commit(1)))
    # In state 1 task 1 is ready at no gate.
    after(5, "abort_to_a_lower_task", 0, (0, 1), state(1, 1))
    after(5, "abort_to_a_lower_task_in_a_full_channel", 12, (0, 1), state(1, 1), across(1, 0, 1, abort(0)))
    # Task 1, free again, decides the request that waits.
    again = across(2, 1, 1, abort(1))
    after(7, "waiting_request_decided", 0, (2, 1), again)
    after(7, "waiting_request_decided_to_a_full_channel", 12, (2, 1), again, across(1, 0, 1, abort(0)))
    decide("commit_to_a_gate_with_three", 12, up(2, 1, 3, READY, abort(1), READY))
    after(5, "abort_to_a_gate_with_two", 0, (0, 1), state(1, 1), up(1, 0, 2, READY, abort(0)))
    after(5, "abort_to_a_gate_with_three", 12, (0, 1), state(1, 1), up(1, 0, 3, READY, abort(0), READY))
    # Task 0 comes back to the same state and announces itself at gate 0, task 2 after its own COMMIT at gate 1.
    back = across(1, 0, 1, commit(0))
    after(7, "ready_to_a_gate_with_two", 0, (1, 0), back, up(0, 0, 2, READY, abort(0)))
    after(7, "ready_to_a_gate_with_three", 12, (1, 0), back, up(0, 0, 3, READY, commit(0), abort(0)))
    after(7, "ready_merged_in_a_full_channel", 0, (1, 0), back, up(0, 0, 3, READY, abort(0), READY))
    decide("commit_and_ready_to_a_gate_with_one", 0, up(2, 1, 1, READY))
    decide("commit_and_ready_to_a_gate_with_two", 12, up(2, 1, 2, READY, abort(1)))


def excluded_waiting():
    from_gate = down(0, 1, 1, lock(0, 0))
    after(6, "sixteenth_waiting_request", 0, (0, 1), waiting_count(1, 15))
    after(6, "seventeenth_waiting_request", 12, (0, 1), waiting_count(1, 16))
    after(6, "sixteenth_waiting_request_from_a_gate", 0, (16, 1), from_gate, waiting_count(1, 15))
    after(6, "seventeenth_waiting_request_from_a_gate", 12, (16, 1), from_gate, waiting_count(1, 16))


def stored(name, ends, edits, file, schedule, size):
    head = struct.pack("<BHBBBBB", len(name), len(file), len(schedule), len(edits), size, *ends)
    return head + name.encode() + file + b"".join(map(bytes, schedule)) + b"".join(edits)


def main():
    assert len(E) == 73
    for group in (
        good, no_channel, channel_empty, log_full, order, unsound_counts, unsound_table_tasks, unsound_transitions,
        unsound_vectors, unsound_states_and_modes, unsound_waiting, unsound_gates, unsound_absent, unsound_log_count,
        unsound_gate_to_task, unsound_task_to_gate, unsound_task_to_task, excluded_results, excluded_locks,
        excluded_sends, excluded_waiting,
    ):
        group()
    names = [name for name, *_ in cases]
    assert len(set(names)) == len(names)
    lines = [f"{name}: answer {answer} {'un' * (answer != 0)}changed\n" for name, answer, *_ in cases]
    given = b"".join(stored(name, *rest) for name, _, *rest in cases)
    assert len(given) < INPUT
    crate = pathlib.Path(__file__).resolve().parent.parent / "crates" / "state_cases"
    (crate / "stdin").write_bytes(given)
    (crate / "stdout").write_text("".join(lines), newline="\n")
    print(f"{len(cases)} cases, {len(given)} bytes")


main()
