//! The paper's P1 to P10, and states that only a hand can build.

use super::*;
use crate::desk::{desk, read_table};
use crate::draft::{pairs, schedule_bytes, table_e, Draft, WORKED_RUN};

// Typed from the paper, so that the writer of drafts is judged too.
const E: [u8; 73] = [
    2, 0, 1, 0, 3, 2, //
    3, 0, 2, 0, 0, 1, 0, //
    3, 0, 2, 0, 1, 2, 0, //
    3, 0, 2, 0, 2, 1, 0, //
    4, 0, 3, 0, 0, 0, 0, 0, //
    4, 0, 3, 0, 1, 0, 0, 1, //
    4, 0, 3, 0, 1, 0, 1, 1, //
    4, 0, 3, 0, 2, 0, 1, 0, //
    3, 0, 4, 0, 0, 3, 0, //
    3, 0, 4, 0, 1, 6, 0,
];

fn answers(table: &[u8], schedule: &str, log: &mut [u8]) -> (State, Vec<u8>) {
    let table = read_table(table).unwrap();
    let mut state = State::fresh(&table).unwrap();
    let mut answers = Vec::new();
    for delivery in pairs(schedule) {
        let (after, outcome) = deliver(&table, state, log, delivery);
        state = after;
        answers.push(outcome.map_or_else(Refusal::number, |_| 0));
    }
    (state, answers)
}

fn place(table: &[u8]) -> (u8, usize) {
    let bad = read_table(table).unwrap_err();
    (bad.why.number(), bad.place)
}

fn e_with_last_mask(mask: u8) -> Vec<u8> {
    let mut bytes = E.to_vec();
    bytes[71] = mask;
    bytes
}

#[test]
fn writer_makes_e() {
    assert_eq!(table_e().bytes(), E);
}

#[test]
fn p1_worked_run() {
    assert_eq!(
        desk(&E, &schedule_bytes(&pairs(WORKED_RUN))),
        "answer 0 delivered 13 log 1 quiet yes\nfire gate 1 vector 0 tasks 6\nstate 0 1 0\n"
    );
}

#[test]
fn p2_log_of_one_byte() {
    let mut log = [170];
    let first_eight = WORKED_RUN.split(' ').take(8).collect::<Vec<_>>().join(" ");
    let (state, given) = answers(&E, &first_eight, &mut log);
    assert_eq!(given, [0, 0, 0, 0, 0, 0, 0, 10]);
    assert_eq!((log, state.log_count()), ([170], 0));
}

#[test]
fn p3_empty_channel() {
    assert_eq!(answers(&E, "16-0", &mut [0; 20]).1, [9]);
}

#[test]
fn p4_gate_to_gate() {
    assert_eq!(answers(&E, "16-17", &mut [0; 20]).1, [8]);
}

#[test]
fn p5_absent_task() {
    assert_eq!(answers(&E, "3-16", &mut [0; 20]).1, [8]);
}

#[test]
fn p6_empty_file() {
    assert_eq!(place(&[]), (6, 0));
}

#[test]
fn p7_three_bytes() {
    assert_eq!(place(&E[..3]), (1, 0));
}

#[test]
fn p8_last_mask_zero() {
    assert_eq!(place(&e_with_last_mask(0)), (4, 66));
}

#[test]
fn p9_last_mask_names_absent_task() {
    assert_eq!(place(&e_with_last_mask(8)), (4, 66));
}

#[test]
fn p10_third_task_record_gone() {
    assert_eq!(place(&[&E[..20], &E[27..]].concat()), (6, 20));
}

#[test]
fn refusal_changes_nothing() {
    let table = read_table(&E).unwrap();
    let fresh = State::fresh(&table).unwrap();
    let mut log = [170; 6];
    for delivery in pairs("16-0 16-17 3-16 0-0 40-40 0-1") {
        let (after, outcome) = deliver(&table, fresh.clone(), &mut log, delivery);
        assert!(outcome.is_err());
        assert_eq!((after, log), (fresh.clone(), [170; 6]));
    }
}

#[test]
fn worked_run_replays() {
    let mut log = [170; 3];
    let (state, _) = answers(&E, WORKED_RUN, &mut log);
    assert_eq!(log, [1, 0, 170]);
    let table = read_table(&E).unwrap();
    let mut machine = SimpleMachine::new(&table);
    for entry in entries(&log, state.log_count()) {
        assert!(machine.fire(entry));
    }
    for task in table.task_numbers() {
        assert_eq!(machine.state(task), state.task(task).state);
    }
}

#[test]
fn eight_vectors_pass_nine_do_not() {
    let mut draft = Draft::new(1, &[(1, 0); 4]);
    draft.vectors = (1..=8).map(|mask| (0, mask)).collect();
    assert!(read_table(&draft.bytes()).is_ok());
    let length = draft.bytes().len();
    draft.vectors.push((0, 9));
    assert_eq!(place(&draft.bytes()), (7, length));
}

#[test]
fn largest_table() {
    let bytes = crate::special::largest_table().bytes();
    assert_eq!(bytes.len(), 33_782);
    assert!(read_table(&bytes).is_ok());
}

#[test]
fn empty_table_breaks_the_rules() {
    assert_eq!(State::fresh(&Table::empty()), Err(Refusal::RangeRule));
    let delivery = pairs("0-16")[0];
    let (_, outcome) = deliver(&Table::empty(), State::empty(), &mut [], delivery);
    assert_eq!(outcome, Err(Refusal::RangeRule));
    let small = Draft::new(1, &[(1, 0)]).bytes();
    let (_, outcome) = deliver(
        &read_table(&small).unwrap(),
        State::empty(),
        &mut [],
        delivery,
    );
    assert_eq!(outcome, Err(Refusal::RangeRule));
}

#[test]
fn a_log_shorter_than_its_count_breaks_the_rules() {
    let (state, _) = answers(&E, WORKED_RUN, &mut [0; 2]);
    let (_, outcome) = deliver(
        &read_table(&E).unwrap(),
        state,
        &mut [0; 1],
        pairs("0-0")[0],
    );
    assert_eq!(outcome, Err(Refusal::RangeRule));
}

// ------------------------------------------------- states built by hand

fn channel(pair: &str) -> Channel {
    Channel::resolve(&read_table(&E).unwrap(), pairs(pair)[0]).unwrap()
}

/// What the delivery answers once table E's fresh state has been tampered with.
fn after(pair: &str, log_length: usize, tamper: impl FnOnce(&mut State)) -> u8 {
    let table = read_table(&E).unwrap();
    let mut state = State::fresh(&table).unwrap();
    tamper(&mut state);
    let mut log = vec![170; log_length];
    let before = state.clone();
    let (after, outcome) = deliver(&table, state, &mut log, pairs(pair)[0]);
    if outcome.is_err() {
        assert_eq!(after, before);
        assert!(log.iter().all(|&byte| byte == 170));
    }
    outcome.map_or_else(Refusal::number, |_| 0)
}

fn fill(state: &mut State, pair: &str, messages: &[Message]) {
    state
        .channels
        .insert(channel(pair), messages.iter().copied().collect());
}

const G0: GateNo = GateNo(0);
const G1: GateNo = GateNo(1);
const LOCK_0: LockRequest = LockRequest {
    gate: G0,
    vector: 0,
};
const LOCK_1: LockRequest = LockRequest {
    gate: G1,
    vector: 0,
};
const HELD_0: TaskMode = TaskMode::Held {
    gate: G0,
    vector: 0,
};
const HELD_1: TaskMode = TaskMode::Held {
    gate: G1,
    vector: 0,
};

#[test]
fn a_result_must_find_its_task_held_by_its_gate() {
    for result in [Message::Commit(G0), Message::Abort(G0)] {
        assert_eq!(after("1-0", 4, |s| fill(s, "1-0", &[result])), 12);
        let held = |mode| {
            after("2-1", 4, |s| {
                s.tasks[1].mode = mode;
                fill(s, "2-1", &[result]);
            })
        };
        assert_eq!(held(HELD_1), 12);
    }
    assert_eq!(
        after("1-0", 4, |s| {
            s.tasks[0].mode = HELD_0;
            fill(s, "1-0", &[Message::Commit(G0)]);
        }),
        0
    );
}

#[test]
fn a_commit_must_find_its_transition() {
    let result = |message| {
        after("2-1", 4, |s| {
            s.tasks[1].state = 1;
            s.tasks[1].mode = HELD_1;
            fill(s, "2-1", &[message]);
        })
    };
    assert_eq!(result(Message::Commit(G1)), 12);
    assert_eq!(result(Message::Abort(G1)), 0);
}

#[test]
fn a_result_must_find_its_gate_dealing_with_its_sender() {
    for result in [Message::Commit(G0), Message::Abort(G0)] {
        let at_gate = |pair, mode| {
            after(pair, 4, |s| {
                s.gates[0].mode = mode;
                fill(s, pair, &[result]);
            })
        };
        assert_eq!(at_gate("1-16", GateMode::Idle), 12);
        assert_eq!(at_gate("2-16", GateMode::Dealing(0)), 12);
        assert_eq!(at_gate("1-16", GateMode::Dealing(0)), 0);
    }
}

#[test]
fn a_full_channel_refuses_except_for_a_merged_ready() {
    let lock = Message::Lock(LOCK_0);
    let search = |in_the_way: bool| {
        after("0-16", 4, |s| {
            s.gates[0].offers = TaskSet(2);
            if in_the_way {
                fill(s, "16-0", &[lock]);
            }
        })
    };
    assert_eq!(search(true), 12);
    assert_eq!(search(false), 0);
    // Task 2 commits to gate 1 and announces itself there: room for both is needed.
    let commit = |queue: &[Message], log_length| {
        after("1-2", log_length, |s| {
            fill(s, "1-2", &[Message::Lock(LOCK_1)]);
            fill(s, "2-17", queue);
        })
    };
    assert_eq!(commit(&[Message::Ready; 1], 2), 0);
    assert_eq!(commit(&[Message::Ready; 2], 2), 12);
    // The same, and no room in the log either.
    assert_eq!(commit(&[Message::Ready; 2], 1), 12);
    assert_eq!(commit(&[Message::Ready; 1], 1), 10);
    // Task 0's channel is full, but its newest message is a READY.
    assert_eq!(
        after("1-0", 4, |s| {
            s.tasks[0].mode = HELD_0;
            fill(s, "1-0", &[Message::Commit(G0)]);
            fill(s, "0-16", &[Message::Ready; 3]);
        }),
        0
    );
}

#[test]
fn sixteen_requests_may_wait() {
    let waiting = |count| {
        after("0-1", 4, |s| {
            s.tasks[1].mode = HELD_1;
            s.tasks[1].waiting = vec![LOCK_1; count].into();
            fill(s, "0-1", &[Message::Lock(LOCK_0)]);
        })
    };
    assert_eq!(waiting(15), 0);
    assert_eq!(waiting(16), 12);
    assert_eq!(waiting(17), 11);
}

#[test]
fn range_rules() {
    let broken = |tamper: &dyn Fn(&mut State)| after("0-0", 4, |s| tamper(s)) == 11;
    assert!(!broken(&|_| ()));
    assert!(broken(&|s| s.tasks[0].state = 1));
    assert!(broken(&|s| s.log_count = 3));
    assert!(broken(&|s| s.tasks.truncate(2)));
    assert!(broken(&|s| s.gates.truncate(1)));
    assert!(broken(&|s| s.tasks[0].waiting.push_back(LOCK_0)));
    // Held: outside the vector, its highest, or a vector that is not there.
    assert!(!broken(&|s| s.tasks[0].mode = HELD_0));
    assert!(broken(&|s| s.tasks[2].mode = HELD_0));
    assert!(broken(&|s| s.tasks[1].mode = HELD_0));
    assert!(broken(&|s| s.tasks[0].mode = TaskMode::Held {
        gate: G0,
        vector: 1
    }));
    assert!(broken(&|s| s.gates[0].offers = TaskSet(8)));
    assert!(broken(&|s| s.gates[0].mode = GateMode::Dealing(1)));
    // Messages where they cannot be.
    let sent = |pair: &str, message| broken(&|s| fill(s, pair, &[message]));
    assert!(!sent("16-0", Message::Lock(LOCK_0)));
    assert!(sent("16-1", Message::Lock(LOCK_1)));
    assert!(sent("17-0", Message::Lock(LOCK_1)));
    assert!(sent("16-0", Message::Ready));
    assert!(sent("16-0", Message::Commit(G0)));
    assert!(!sent("0-1", Message::Lock(LOCK_0)));
    assert!(sent("0-1", Message::Abort(G0)));
    assert!(sent("1-0", Message::Lock(LOCK_0)));
    assert!(!sent("1-0", Message::Abort(G1)));
    assert!(sent("1-0", Message::Abort(GateNo(2))));
    assert!(!sent("1-16", Message::Abort(G0)));
    assert!(sent("1-16", Message::Abort(G1)));
    assert!(sent("0-16", Message::Lock(LOCK_0)));
    assert!(broken(&|s| fill(s, "0-16", &[Message::Ready; 4])));
    assert!(broken(&|s| fill(s, "1-0", &[Message::Abort(G0); 2])));
}
