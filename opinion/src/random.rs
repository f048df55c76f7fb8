//! Random tables, schedules and damage, reproducible from a seed.

use std::ops::RangeInclusive;

use crate::cases::{Case, LOG_BEFORE};
use crate::desk;
use crate::draft::{schedule_bytes, vector_record, Draft};
use crate::paper::{deliver, Channel, Delivery, Event, Party, State, Table};

/// splitmix64.
pub struct Rng(u64);

impl Rng {
    pub fn new(seed: u64) -> Rng {
        Rng(seed)
    }

    pub fn next(&mut self) -> u64 {
        self.0 = self.0.wrapping_add(0x9e37_79b9_7f4a_7c15);
        let mut z = self.0;
        z = (z ^ (z >> 30)).wrapping_mul(0xbf58_476d_1ce4_e5b9);
        z = (z ^ (z >> 27)).wrapping_mul(0x94d0_49bb_1331_11eb);
        z ^ (z >> 31)
    }

    pub fn below(&mut self, bound: usize) -> usize {
        (self.next() % bound as u64) as usize
    }

    pub fn within(&mut self, range: RangeInclusive<usize>) -> usize {
        range.start() + self.below(range.end() - range.start() + 1)
    }

    pub fn percent(&mut self, chance: usize) -> bool {
        self.below(100) < chance
    }

    pub fn byte(&mut self) -> u8 {
        self.next() as u8
    }

    pub fn pick<T: Copy>(&mut self, items: &[T]) -> T {
        items[self.below(items.len())]
    }
}

pub fn random_case(rng: &mut Rng) -> Case {
    let crowded = rng.percent(9);
    let draft = if crowded {
        crowd(rng)
    } else {
        lively_draft(rng)
    };
    let log_length = match rng.below(10) {
        0 => rng.within(0..=5),
        1 => rng.within(61..=150),
        _ => rng.within(0..=60),
    };
    let good = draft.bytes();
    let table = desk::read_table(&good).expect("a draft makes an acceptable table");
    let mut schedule = schedule_bytes(&random_schedule(rng, &table, log_length, crowded));
    if rng.percent(5) {
        schedule = damaged_schedule(rng, schedule);
    }
    let table = if rng.percent(10) {
        damaged_table(rng, &draft)
    } else {
        good
    };
    Case {
        table,
        schedule,
        log_length,
    }
}

// ---------------------------------------------------------------- tables

#[derive(Clone, Copy)]
enum Course {
    Anywhere,
    /// No way back, so that runs become quiet.
    Onward,
    MostlyLoops,
    /// Round and round, ready everywhere in state 0 only: locks come too late.
    Contest,
}

/// Most random tables soon stand still and seldom refuse a lock, so most of the
/// time a few are tried until one does better.
fn lively_draft(rng: &mut Rng) -> Draft {
    let wish = rng.below(10);
    let mut draft = good_draft(rng);
    for _ in 0..6 {
        let (quiet, aborts) = trial(rng, &draft);
        let granted = match wish {
            0..=1 => true,
            2..=5 => !quiet,
            _ => aborts > 0,
        };
        if granted {
            break;
        }
        draft = good_draft(rng);
    }
    draft
}

/// Whether a short random run becomes quiet, and how many ABORTs it decides.
fn trial(rng: &mut Rng, draft: &Draft) -> (bool, usize) {
    let table = desk::read_table(&draft.bytes()).expect("a draft makes an acceptable table");
    let mut log = vec![0; desk::LOG_LENGTH];
    let mut state = State::fresh(&table).expect("a read table keeps the rules");
    let mut aborts = 0;
    for _ in 0..50 {
        let waiting: Vec<Channel> = state.channels().keys().copied().collect();
        if waiting.is_empty() {
            break;
        }
        let (after, outcome) = deliver(&table, state, &mut log, rng.pick(&waiting).delivery());
        state = after;
        let events = outcome.unwrap_or_default();
        aborts += events
            .iter()
            .filter(|&event| *event == Event::AbortSent)
            .count();
    }
    (state.is_quiet(), aborts)
}

fn good_draft(rng: &mut Rng) -> Draft {
    let tasks = match rng.below(100) {
        0..=3 => 1,
        4..=89 => rng.within(2..=6),
        90..=96 => rng.within(7..=12),
        _ => 16,
    };
    let gates = match rng.below(100) {
        0..=87 => rng.within(1..=4),
        88..=95 => rng.within(5..=7),
        _ => rng.within(8..=16),
    };
    let most_states = match rng.below(100) {
        0..=17 => 1,
        18..=74 => 2,
        75..=96 => 4,
        _ => 16,
    };
    let rows: Vec<_> = (0..tasks)
        .map(|_| {
            let states = rng.within(1..=most_states);
            (states as u8, rng.below(states) as u8)
        })
        .collect();
    let mut draft = Draft::new(gates as u8, &rows);
    add_vectors(rng, &mut draft);
    let course = match rng.below(20) {
        0..=4 => Course::Anywhere,
        5..=8 => Course::Onward,
        9..=11 => Course::MostlyLoops,
        _ => Course::Contest,
    };
    add_transitions(rng, &mut draft, course);
    draft
}

fn add_vectors(rng: &mut Rng, draft: &mut Draft) {
    let tasks = draft.tasks.len();
    let hot = rng.percent(35).then(|| rng.below(tasks));
    for gate in 0..draft.gates {
        let wanted = match rng.below(100) {
            0..=6 => 0,
            7..=64 => 1,
            65..=86 => 2,
            87..=96 => rng.within(3..=5),
            _ => Table::MAX_VECTORS,
        };
        let mut masks = Vec::new();
        // Few tasks have few masks: stop asking after a while.
        for _ in 0..4 * wanted {
            let mask = random_mask(rng, tasks, hot);
            if masks.len() < wanted && !masks.contains(&mask) {
                masks.push(mask);
            }
        }
        draft
            .vectors
            .extend(masks.into_iter().map(|mask| (gate, mask)));
    }
}

fn random_mask(rng: &mut Rng, tasks: usize, hot: Option<usize>) -> u16 {
    let size = match rng.below(100) {
        0..=7 => 1,
        8..=52 => 2,
        53..=77 => 3,
        78..=94 => 4,
        _ => rng.within(5..=16),
    };
    let mut mask = 0u16;
    if let Some(task) = hot.filter(|_| rng.percent(80)) {
        mask |= 1 << task;
    }
    while (mask.count_ones() as usize) < size.min(tasks) {
        mask |= 1 << rng.below(tasks);
    }
    mask
}

fn add_transitions(rng: &mut Rng, draft: &mut Draft, course: Course) {
    let density = rng.pick(&[65, 85, 100]);
    for task in 0..draft.tasks.len() as u8 {
        let (states, _) = draft.tasks[usize::from(task)];
        for gate in 0..draft.gates {
            let takes_part = draft
                .vectors
                .iter()
                .any(|&(g, mask)| g == gate && mask >> task & 1 == 1);
            let chance = match (takes_part, states) {
                (false, _) => 4,
                (true, 0..=4) => density,
                (true, _) => 25,
            };
            for from in 0..states {
                let chance = match course {
                    Course::Contest if takes_part && from == 0 => 100,
                    Course::Contest => chance / 2,
                    _ => chance,
                };
                if !rng.percent(chance) {
                    continue;
                }
                let to = match course {
                    Course::Onward if from + 1 == states => continue,
                    Course::Onward => {
                        rng.within(usize::from(from) + 1..=usize::from(states) - 1) as u8
                    }
                    Course::MostlyLoops if rng.percent(75) => from,
                    Course::Contest => (from + 1) % states,
                    _ => rng.below(usize::from(states)) as u8,
                };
                draft.transitions.insert((task, from, gate), to);
            }
        }
    }
}

/// Many gates calling on two or three tasks: waiting lists grow here.
fn crowd(rng: &mut Rng) -> Draft {
    let tasks = rng.within(2..=3);
    let gates = if rng.percent(15) {
        16
    } else {
        rng.within(3..=8)
    };
    let mut draft = Draft::new(gates as u8, &vec![(1, 0); tasks]);
    for gate in 0..gates as u8 {
        // Most gates want the first task alone, which the others hold.
        let mask = if rng.percent(60) {
            1
        } else {
            rng.within(2..=(1 << tasks) - 1) as u16
        };
        draft.vectors.push((gate, mask));
        for task in 0..tasks as u8 {
            if mask >> task & 1 == 1 || rng.percent(5) {
                draft = draft.step(task, 0, gate, 0);
            }
        }
    }
    draft
}

// ------------------------------------------------------------- schedules

#[derive(Clone, Copy)]
enum Starved {
    Nothing,
    Channel(Channel),
    Into(Party),
    OutOf(Party),
}

impl Starved {
    fn spares(self, channel: Channel) -> bool {
        match self {
            Starved::Nothing => true,
            Starved::Channel(starved) => channel != starved,
            Starved::Into(party) => channel.to != party,
            Starved::OutOf(party) => channel.from != party,
        }
    }

    /// Starving a channel between tasks keeps a task Held, so that others wait for it.
    fn choose(rng: &mut Rng, waiting: &[Channel], between_tasks: bool) -> Option<Starved> {
        if between_tasks {
            let candidates: Vec<_> = waiting
                .iter()
                .copied()
                .filter(|c| matches!((c.from, c.to), (Party::Task(_), Party::Task(_))))
                .collect();
            return (!candidates.is_empty()).then(|| Starved::Channel(rng.pick(&candidates)));
        }
        let channel = rng.pick(waiting);
        Some(match rng.below(4) {
            0 => Starved::Into(channel.to),
            1 => Starved::OutOf(channel.from),
            _ => Starved::Channel(channel),
        })
    }
}

fn random_schedule(
    rng: &mut Rng,
    table: &Table,
    log_length: usize,
    crowded: bool,
) -> Vec<Delivery> {
    let clean = rng.percent(50);
    let length = match rng.below(100) {
        0..=2 => 0,
        3..=12 => rng.within(1..=20),
        13..=82 => rng.within(20..=55),
        83..=92 => rng.within(55..=80),
        // Until quiet, where that comes soon.
        _ => 120,
    };
    // A schedule made against the case's own log goes on usefully after a 10.
    let own_log = !clean && rng.percent(60);
    let mut log = vec![
        LOG_BEFORE;
        if own_log {
            log_length
        } else {
            desk::LOG_LENGTH
        }
    ];
    let starving = crowded || rng.percent(75);
    let between_tasks = crowded || rng.percent(65);
    let mut starved = Starved::Nothing;
    let mut phase_end = 0;
    let mut state = State::fresh(table).expect("a read table keeps the rules");
    let mut schedule = Vec::new();
    while schedule.len() < length {
        let waiting: Vec<Channel> = state.channels().keys().copied().collect();
        if waiting.is_empty() {
            if !clean {
                schedule.extend((0..rng.below(4)).map(|_| stray_pair(rng, table)));
            }
            break;
        }
        if starving && schedule.len() >= phase_end {
            // A pause between two famines, or the same channel would starve for ever.
            let length = match starved {
                Starved::Nothing if rng.percent(20) => 60,
                Starved::Nothing => rng.within(5..=25),
                _ => rng.within(4..=12),
            };
            let next = match starved {
                Starved::Nothing => Starved::choose(rng, &waiting, between_tasks),
                _ => Some(Starved::Nothing),
            };
            if let Some(next) = next {
                starved = next;
                phase_end = schedule.len() + length;
            }
        }
        let delivery = if !clean && rng.percent(9) {
            stray_pair(rng, table)
        } else {
            let fed: Vec<_> = waiting
                .iter()
                .copied()
                .filter(|&c| starved.spares(c))
                .collect();
            rng.pick(if fed.is_empty() { &waiting } else { &fed })
                .delivery()
        };
        schedule.push(delivery);
        state = deliver(table, state, &mut log, delivery).0;
    }
    if clean && !schedule.is_empty() && rng.percent(30) {
        schedule.push(stray_pair(rng, table));
    }
    schedule
}

/// A pair most likely refused: absent, equal, gate to gate, or empty.
fn stray_pair(rng: &mut Rng, table: &Table) -> Delivery {
    let tasks = table.task_numbers().count();
    let gates = table.gate_numbers().count();
    let present: Vec<u8> = (0..tasks).chain(16..16 + gates).map(|e| e as u8).collect();
    let (mut from, mut to) = (rng.pick(&present), rng.pick(&present));
    match rng.below(8) {
        0 => to = from,
        1 => from = rng.within(tasks..=16) as u8,
        2 => to = rng.within(16 + gates..=33) as u8,
        3 => (from, to) = (rng.byte(), rng.byte()),
        _ => (),
    }
    Delivery { from, to }
}

// ---------------------------------------------------------------- damage

fn damaged_table(rng: &mut Rng, draft: &Draft) -> Vec<u8> {
    let mut records = draft.records();
    let at = rng.below(records.len());
    match rng.below(11) {
        0 | 1 => return one_byte_changed(rng, records.concat()),
        2 => drop(records.remove(at)),
        3 => records.insert(at, records[at].clone()),
        4 => records.swap(at, (at + 1) % draft.records().len()),
        5 => return cut(rng, records.concat()),
        6 => {
            let gate = rng.below(usize::from(draft.gates)) as u8;
            let mut spoilt = draft.clone();
            let kept = spoilt.vectors.partition_point(|&(g, _)| g < gate);
            spoilt.vectors.truncate(kept);
            let repeats = rng.percent(30);
            let full = (1u32 << draft.tasks.len()) - 1;
            for number in 0..9 {
                let mask = 1 + number % full.min(if repeats { 8 } else { 16 });
                spoilt.vectors.push((gate, mask as u16));
            }
            return spoilt.bytes();
        }
        7 => {
            let more = rng.within(1..=9);
            records.push((0..more).map(|_| rng.byte()).collect());
        }
        8 => {
            let length = rng.below(7) as u8;
            records[at][0] = length;
            if rng.percent(50) {
                records[at].resize(4 + usize::from(length), 0);
            }
        }
        9 => {
            let field = rng.within(4..=records[at].len() - 1);
            records[at][field] = rng.below(20) as u8;
        }
        _ => {
            let gate = rng.below(usize::from(draft.gates) + 1) as u8;
            records.push(vector_record(gate, rng.next() as u16 >> rng.below(16)));
        }
    }
    records.concat()
}

fn damaged_schedule(rng: &mut Rng, mut bytes: Vec<u8>) -> Vec<u8> {
    match rng.below(4) {
        0 => return one_byte_changed(rng, bytes),
        1 => return cut(rng, bytes),
        2 => bytes.extend((0..rng.within(1..=7)).map(|_| rng.pick(&[0, 0, 2, 5, 16]))),
        _ if bytes.len() >= 6 => {
            // One of the four head bytes, so that 2 and 3 are met often.
            let head = 6 * rng.below(bytes.len() / 6);
            bytes[head + rng.below(4)] = rng.below(8) as u8;
        }
        _ => (),
    }
    bytes
}

fn one_byte_changed(rng: &mut Rng, mut bytes: Vec<u8>) -> Vec<u8> {
    if !bytes.is_empty() {
        let at = rng.below(bytes.len());
        bytes[at] = if rng.percent(60) {
            rng.below(18) as u8
        } else {
            rng.byte()
        };
    }
    bytes
}

fn cut(rng: &mut Rng, mut bytes: Vec<u8>) -> Vec<u8> {
    bytes.truncate(rng.below(bytes.len() + 1));
    bytes
}
