//! Cases written by hand, each for one corner of the paper.

use crate::cases::Case;
use crate::desk;
use crate::draft::{pairs, schedule_bytes, table_e, vector_record, Draft, WORKED_RUN};
use crate::paper::{deliver, write_record, Delivery, State};

pub fn cases() -> Vec<Case> {
    [
        table_e_runs(),
        table_faults(),
        schedule_faults(),
        runs(),
        waiting_lists(),
        large_files(),
    ]
    .into_iter()
    .flatten()
    .collect()
}

fn raw(table: Vec<u8>, schedule: Vec<u8>, log_length: usize) -> Case {
    Case {
        table,
        schedule,
        log_length,
    }
}

fn case(draft: &Draft, schedule: &str, log_length: usize) -> Case {
    raw(draft.bytes(), schedule_bytes(&pairs(schedule)), log_length)
}

/// The pairs given, then the lowest channel first until quiet or `most` deliveries.
fn onward(draft: &Draft, schedule: &str, most: usize, log_length: usize) -> Case {
    let bytes = draft.bytes();
    let table = desk::read_table(&bytes).expect("a draft makes an acceptable table");
    let mut log = vec![0; desk::LOG_LENGTH];
    let mut state = State::fresh(&table).expect("a read table keeps the rules");
    let mut deliveries = pairs(schedule);
    for &delivery in &deliveries {
        state = deliver(&table, state, &mut log, delivery).0;
    }
    while deliveries.len() < most {
        let Some(channel) = state.channels().keys().next() else {
            break;
        };
        let delivery = channel.delivery();
        state = deliver(&table, state, &mut log, delivery).0;
        deliveries.push(delivery);
    }
    raw(bytes, schedule_bytes(&deliveries), log_length)
}

fn table_e_runs() -> Vec<Case> {
    let e = table_e();
    let mut cases: Vec<Case> = [200, 0, 1, 2, 3, 4]
        .iter()
        .map(|&length| case(&e, WORKED_RUN, length))
        .collect();
    cases.extend([
        case(&e, "", 7),
        case(&e, "16-0", 20),
        case(&e, "16-17", 20),
        case(&e, "3-16", 20),
        case(
            &e,
            "0-0 16-16 40-40 3-3 255-255 200-16 16-200 31-0 0-31 32-1 1-32 18-0 0-18 48-0 0-48 32-16 1-0",
            5,
        ),
        case(&e, "0-16 0-16", 5),
        // Gate 0 wins task 1, gate 1 is refused by its lowest task.
        case(
            &e,
            "0-16 1-16 1-17 2-17 16-0 0-1 17-1 1-0 1-16 1-17 0-16",
            4,
        ),
        // Gate 1's lock reaches task 1 first, gate 0's has to wait there.
        case(
            &e,
            "1-17 2-17 17-1 0-16 1-16 16-0 0-1 1-2 2-17 2-1 1-0 2-17 1-16 1-17",
            9,
        ),
        onward(&e, "", 100, 40),
    ]);
    cases
}

fn e_with(edit: impl FnOnce(&mut Vec<Vec<u8>>)) -> Case {
    let mut records = table_e().records();
    edit(&mut records);
    raw(records.concat(), schedule_bytes(&pairs(WORKED_RUN)), 10)
}

fn table_faults() -> Vec<Case> {
    let schedule = || schedule_bytes(&pairs("0-16"));
    let mut cases = vec![
        raw(Vec::new(), schedule(), 4),
        raw(Vec::new(), vec![9], 4),
        raw(table_e().bytes()[..3].to_vec(), schedule(), 4),
        raw(table_e().bytes()[..4].to_vec(), schedule(), 4),
        raw(table_e().bytes()[..6].to_vec(), schedule(), 4),
        raw(table_e().bytes()[..20].to_vec(), schedule(), 4),
        raw(table_e().bytes()[..72].to_vec(), schedule(), 4),
        // Masks.
        e_with(|r| r[9][5] = 0),
        e_with(|r| r[9][5] = 8),
        e_with(|r| r[9][6] = 128),
        // Kinds.
        e_with(|r| drop(r.remove(0))),
        e_with(|r| r.insert(1, r[0].clone())),
        e_with(|r| r.push(r[0].clone())),
        e_with(|r| r.swap(7, 8)),
        e_with(|r| r[9][2] = 5),
        e_with(|r| r[9][2] = 0),
        e_with(|r| r[9][3] = 1),
        e_with(|r| r.push(write_record(5, &[0, 16]))),
        e_with(|r| r[0][3] = 1),
        // Tasks missing; the 6 in the middle is seen before the length.
        e_with(|r| drop(r.remove(3))),
        e_with(|r| {
            r.remove(3);
            r[3][0] = 9;
        }),
        e_with(|r| drop(r.drain(2..))),
        // Lengths, seen before a missing body.
        e_with(|r| r[0][0] = 3),
        e_with(|r| r[5][1] = 1),
        e_with(|r| r[9] = vec![4, 0, 4, 0, 1]),
        e_with(|r| r[9] = vec![3, 0, 4, 0, 1]),
        e_with(|r| r.push(vec![9, 0, 4, 0])),
        e_with(|r| r.push(vec![9, 0, 3, 0])),
        // Order.
        e_with(|r| r.swap(1, 2)),
        e_with(|r| r.insert(4, r[3].clone())),
        e_with(|r| r.insert(4, write_record(2, &[3, 1, 0]))),
        e_with(|r| r.insert(4, write_record(2, &[2, 0, 0]))),
        e_with(|r| r.swap(5, 6)),
        e_with(|r| r.insert(5, r[5].clone())),
        e_with(|r| r.insert(5, write_record(3, &[0, 0, 0, 0]))),
        e_with(|r| r.swap(8, 9)),
        e_with(|r| r.push(r[9].clone())),
        e_with(|r| r.push(vector_record(0, 7))),
        e_with(|r| r.push(vector_record(1, 3))),
        e_with(|r| r.push(vec![3])),
    ];
    // Field ranges: (record, byte, value), the last of each pair just too much.
    for (record, byte, value) in [
        (0, 4, 0),
        (0, 4, 17),
        (0, 5, 0),
        (0, 5, 17),
        (0, 5, 16),
        (1, 4, 3),
        (1, 5, 0),
        (1, 5, 17),
        (1, 5, 16),
        (1, 6, 1),
        (2, 6, 1),
        (7, 4, 3),
        (7, 5, 1),
        (7, 6, 2),
        (7, 7, 1),
        (8, 4, 2),
    ] {
        cases.push(e_with(|r| r[record][byte] = value));
    }
    let with_masks = |masks: &[(u8, u16)]| {
        let mut draft = Draft::new(2, &[(1, 0); 4]).loops();
        draft.vectors = masks.to_vec();
        draft
    };
    let eight: Vec<_> = (1..=8).map(|mask| (0, mask)).collect();
    let and = |more: &[(u8, u16)]| with_masks(&[&eight, more].concat());
    cases.extend([
        onward(&with_masks(&eight), "", 50, 30),
        case(&and(&[(0, 9)]), "0-16", 3),
        case(&and(&[(0, 8)]), "0-16", 3),
        case(&and(&[(1, 3), (0, 9)]), "0-16", 3),
        case(&and(&[(1, 3), (0, 3)]), "0-16", 3),
        case(&and(&[(1, 3), (1, 3)]), "0-16", 3),
        case(&and(&[(0, 16)]), "0-16", 3),
        case(
            &with_masks(&[(0, 3), (1, 3)]),
            "0-16 1-16 0-17 1-17 16-0 17-0 0-1 1-0 0-1",
            3,
        ),
        case(&with_masks(&[(0, 3), (0, 5), (0, 3)]), "0-16", 3),
        case(&with_masks(&[]), "0-16 0-17", 3),
    ]);
    cases
}

fn schedule_faults() -> Vec<Case> {
    let with = |bytes: &[u8]| {
        let good = schedule_bytes(&pairs("0-16 1-16"));
        raw(table_e().bytes(), [&good, bytes].concat(), 6)
    };
    vec![
        with(&[2]),
        with(&[2, 0, 5]),
        with(&[2, 0, 5, 0]),
        with(&[2, 0, 5, 0, 16]),
        with(&[2, 0, 4, 0, 16, 0]),
        with(&[2, 0, 5, 1, 16, 0]),
        with(&[3, 0, 5, 0, 16, 0, 0]),
        with(&[2, 1, 5, 0, 16, 0]),
        with(&[3, 0, 3, 0]),
        with(&[3, 0, 5, 0]),
        with(&[2, 0, 0, 0]),
    ]
}

fn runs() -> Vec<Case> {
    let one = Draft::new(1, &[(1, 0)]).loops().vector(0, &[0]);
    let one_moving = Draft::new(1, &[(3, 1)])
        .step(0, 1, 0, 2)
        .step(0, 2, 0, 0)
        .vector(0, &[0]);
    let two_gates = Draft::new(2, &[(1, 0)])
        .loops()
        .vector(0, &[0])
        .vector(1, &[0]);
    let four = Draft::new(1, &[(1, 0); 4]).loops().vector(0, &[0, 1, 2, 3]);
    let far = Draft::new(16, &[(1, 0); 16])
        .step(1, 0, 15, 0)
        .step(3, 0, 15, 0)
        .step(15, 0, 15, 0)
        .step(15, 0, 0, 0)
        .vector(0, &[15])
        .vector(15, &[1, 3, 15]);
    // Task 3, or 2, can slip away through gate 1 to a state without gate 0.
    let slips = |task: u8| {
        let mut draft = four.clone().vector(1, &[task]);
        draft.gates = 2;
        draft.tasks[usize::from(task)] = (2, 0);
        draft.step(task, 0, 1, 1).step(task, 1, 1, 0)
    };
    let to_four = "0-16 1-16 2-16 3-16";
    // After two moves task 1 is not ready at gate 0, yet its second READY was heard.
    let old_ready = Draft::new(2, &[(1, 0), (3, 0)])
        .step(0, 0, 0, 0)
        .step(1, 0, 0, 0)
        .step(1, 0, 1, 1)
        .step(1, 1, 0, 1)
        .step(1, 1, 1, 2)
        .vector(0, &[0, 1])
        .vector(1, &[1]);
    // An ABORT lets the gate deal its other vector, to a task still Held by that gate.
    let second_choice = Draft::new(2, &[(1, 0), (2, 0), (1, 0)])
        .step(0, 0, 0, 0)
        .step(1, 0, 0, 0)
        .step(1, 0, 1, 1)
        .step(2, 0, 0, 0)
        .vector(0, &[0, 1])
        .vector(0, &[0, 2])
        .vector(1, &[1]);
    let away = "0-16 1-16 2-16 1-17 17-1 16-0 0-1";
    let lowest_first = Draft::new(1, &[(1, 0); 3])
        .loops()
        .vector(0, &[0, 1, 2])
        .vector(0, &[1, 2])
        .vector(0, &[0])
        .vector(0, &[2]);
    let ring = Draft::new(3, &[(1, 0); 3])
        .loops()
        .vector(0, &[0, 1])
        .vector(1, &[1, 2])
        .vector(2, &[0, 2]);
    vec![
        case(&one, "0-16 16-0 0-16 0-16 16-0 0-16 0-16", 4),
        case(&one, "0-16 16-0 0-16 0-16 16-0 0-16 0-16", 3),
        case(&one, "16-0 0-16 16-0 0-16 0-16 16-0 16-0 16-0 0-16", 2),
        onward(&one, "", 999, 61),
        onward(&one_moving, "", 30, 5),
        onward(&one_moving, "", 30, 3),
        // The READY for gate 0 is not sent again while the first still travels.
        case(
            &two_gates,
            "0-17 17-0 0-17 0-17 17-0 0-16 16-0 0-16 0-16",
            6,
        ),
        // READY, COMMIT, READY fill the channel to gate 0; an offset synchronization.
        case(&two_gates, "0-16 0-17 17-0 16-0", 8),
        case(
            &two_gates,
            "0-16 0-17 17-0 16-0 0-16 0-16 0-16 0-17 0-17 17-0 16-0",
            7,
        ),
        case(
            &four,
            "0-16 1-16 2-16 3-16 16-0 0-1 1-2 2-3 3-0 3-1 3-2 3-16",
            2,
        ),
        case(
            &four,
            "0-16 1-16 2-16 3-16 16-0 0-1 1-2 2-3 3-16 3-16 3-2 3-1 3-0 0-16 2-16",
            2,
        ),
        onward(&four, "3-16 2-16 1-16 0-16", 60, 7),
        onward(&far, "", 60, 9),
        onward(
            &slips(3),
            &format!("{to_four} 3-17 17-3 16-0 0-1 1-2 2-3 3-2 3-1 3-0 3-16"),
            60,
            20,
        ),
        onward(
            &slips(2),
            &format!("{to_four} 2-17 17-2 16-0 0-1 1-2 2-16 2-1 2-0"),
            60,
            20,
        ),
        onward(
            &slips(0),
            &format!("{to_four} 0-17 17-0 16-0 0-17 0-17 17-0 0-16 0-16"),
            50,
            20,
        ),
        // Away and back again: task 3 accepts though it has moved twice.
        onward(
            &slips(3),
            &format!("{to_four} 3-17 17-3 3-17 3-17 17-3 16-0 0-1 1-2 2-3"),
            60,
            20,
        ),
        onward(
            &old_ready,
            "0-16 1-16 1-17 17-1 1-17 1-17 1-16 17-1 16-0 0-1 1-16 1-0",
            60,
            20,
        ),
        case(
            &second_choice,
            &format!("{away} 1-16 16-0 1-0 0-2 2-0 2-16"),
            20,
        ),
        case(
            &second_choice,
            &format!("{away} 1-0 1-16 16-0 0-2 2-16 2-16 2-0"),
            4,
        ),
        case(
            &lowest_first,
            "2-16 16-2 1-16 0-16 2-16 2-16 16-0 0-16 16-1 1-2 2-16 2-1",
            8,
        ),
        onward(&lowest_first, "1-16 0-16 2-16", 60, 21),
        onward(&ring, "", 80, 33),
        onward(
            &ring,
            "0-16 1-16 1-17 2-17 0-18 2-18 16-0 17-1 18-0 0-1 1-2 2-1 1-0",
            80,
            34,
        ),
    ]
}

fn waiting_lists() -> Vec<Case> {
    // Gate 0 holds task 0, all others want it alone.
    let mut crowd = Draft::new(16, &[(1, 0); 2]).loops().vector(0, &[0, 1]);
    for gate in 1..16 {
        crowd = crowd.vector(gate, &[0]);
    }
    let mut gather = String::from("0-16 1-16 16-0");
    for gate in 17..32 {
        gather += &format!(" 0-{gate} {gate}-0");
    }
    let all_at_once = format!("{gather} 0-1 1-0 1-16 0-31 0-31");
    let mut cases: Vec<Case> = [32, 31, 30, 33, 34, 2, 1]
        .iter()
        .map(|&n| case(&crowd, &all_at_once, n))
        .collect();
    // Gate 0 heard task 0 once more before it was held, so that its next lock is the
    // 16th to wait; it holds the task again after the other 15.
    let gather_more = gather.replacen("16-0", "0-17 17-0 0-16 16-0", 1).replacen(
        " 0-17 17-0 0-18",
        " 0-17 0-17 17-0 0-18",
        1,
    );
    let sixteen = format!("{gather_more} 0-1 1-16 1-16 16-0 1-0 0-1");
    cases.extend([36, 34, 33, 3].map(|n| case(&crowd, &sixteen, n)));
    // Locks that wait until an ABORT frees the task.
    let mut refusing = crowd.clone();
    refusing.tasks[1] = (2, 0);
    refusing.transitions.insert((1, 0, 1), 1);
    refusing.vectors[1] = (1, 2);
    let gather_refused = gather.replace(" 0-17 17-0", " 1-17 17-1");
    cases.push(case(
        &refusing,
        &format!("{gather_refused} 0-1 1-0 1-16 0-31 0-31"),
        40,
    ));
    cases.push(case(
        &refusing,
        &format!("{gather_refused} 0-1 1-16 1-0 16-0 0-20"),
        29,
    ));

    // The second of three waiting requests holds the task again.
    let held_again = Draft::new(4, &[(1, 0); 2])
        .loops()
        .vector(0, &[0, 1])
        .vector(1, &[0])
        .vector(2, &[0, 1])
        .vector(3, &[0]);
    let three_wait = "0-16 1-16 16-0 0-17 17-0 0-18 1-18 18-0 0-19 19-0 0-1 1-0";
    cases.push(case(&held_again, three_wait, 10));
    cases.push(case(
        &held_again,
        &format!("{three_wait} 0-1 1-0 0-16 0-17 0-18 0-19"),
        8,
    ));
    cases.push(onward(&held_again, three_wait, 70, 25));

    // The held task moves; the waiting lock is accepted where it is ready then, else refused.
    let moving = |ready_again: bool| {
        let draft = Draft::new(2, &[(2, 0), (1, 0)])
            .step(0, 0, 0, 1)
            .step(0, 0, 1, 1)
            .step(0, 1, 0, 0)
            .step(1, 0, 0, 0)
            .vector(0, &[0, 1])
            .vector(1, &[0]);
        if ready_again {
            draft.step(0, 1, 1, 0)
        } else {
            draft
        }
    };
    for ready_again in [true, false] {
        let draft = moving(ready_again);
        cases.push(case(&draft, "0-16 1-16 0-17 16-0 17-0 0-1 1-0", 4));
        cases.push(case(
            &draft,
            "0-16 1-16 0-17 16-0 17-0 0-1 1-0 1-16 0-17 1-16",
            3,
        ));
        cases.push(onward(&draft, "0-16 1-16 0-17 16-0 17-0 0-1 1-0", 50, 16));
    }
    cases
}

/// Every count at its bound.
pub fn largest_table() -> Draft {
    let mut draft = Draft::new(16, &[(16, 15); 16]);
    for task in 0..16 {
        for from in 0..16 {
            for gate in 0..16 {
                draft
                    .transitions
                    .insert((task, from, gate), (from + gate) % 16);
            }
        }
    }
    for gate in 0..16 {
        draft
            .vectors
            .extend((0..8).map(|v| (gate, 3 << v << (gate % 8))));
    }
    draft
}

fn large_files() -> Vec<Case> {
    let repeated = |count| schedule_bytes(&vec![Delivery { from: 0, to: 16 }; count]);
    let largest = largest_table();
    let mut too_large = largest.bytes();
    while too_large.len() <= desk::TABLE_ROOM {
        too_large.extend(vector_record(15, 1));
    }
    vec![
        raw(table_e().bytes(), repeated(10_000), 4),
        raw(table_e().bytes(), repeated(10_001), 4),
        case(
            &largest,
            "0-16 1-16 16-0 0-1 1-0 1-16 1-16 15-31 14-31 31-14 14-15 15-14",
            6,
        ),
        raw(too_large, repeated(1), 4),
    ]
}
