//! Cases: their file, the text expected for them, and a count of what happens in them.

use std::fmt::{self, Write};
use std::fs;
use std::io;
use std::path::Path;

use crate::desk;
use crate::paper::{deliver, Delivery, Event, GateMode, Message, Refusal, State, Table, TaskMode};
use crate::random::{random_case, Rng};
use crate::special;

pub struct Case {
    pub table: Vec<u8>,
    pub schedule: Vec<u8>,
    pub log_length: usize,
}

/// What every byte of the second run's log holds before it.
pub const LOG_BEFORE: u8 = 170;

const EXAMPLE_LOG_LENGTH: usize = 200;

/// The whole sequence: examples, handwritten cases, random cases.
pub fn all_cases(seed: u64, count: usize, examples: Option<&Path>) -> io::Result<Vec<Case>> {
    let mut cases = match examples {
        Some(folder) => example_cases(folder)?,
        None => Vec::new(),
    };
    cases.extend(special::cases());
    let mut rng = Rng::new(seed);
    cases.extend((0..count).map(|_| random_case(&mut rng)));
    Ok(cases)
}

fn example_cases(folder: &Path) -> io::Result<Vec<Case>> {
    let mut folders = Vec::new();
    for entry in fs::read_dir(folder)? {
        folders.push(entry?.path());
    }
    folders.sort();
    let mut cases = Vec::new();
    for folder in folders {
        let (table, schedule) = (folder.join("table.bin"), folder.join("sched.bin"));
        if table.is_file() && schedule.is_file() {
            cases.push(Case {
                table: fs::read(table)?,
                schedule: fs::read(schedule)?,
                log_length: EXAMPLE_LOG_LENGTH,
            });
        }
    }
    Ok(cases)
}

pub fn cases_file(cases: &[Case]) -> Vec<u8> {
    let mut bytes = Vec::new();
    for case in cases {
        for length in [case.table.len(), case.schedule.len(), case.log_length] {
            bytes.extend((length as u32).to_le_bytes());
        }
        bytes.extend_from_slice(&case.table);
        bytes.extend_from_slice(&case.schedule);
    }
    bytes
}

/// The cases of a file, or `None` where its lengths don't add up.
pub fn read_cases(mut bytes: &[u8]) -> Option<Vec<Case>> {
    fn take<'b>(bytes: &mut &'b [u8], length: usize) -> Option<&'b [u8]> {
        let (front, rest) = bytes.split_at_checked(length)?;
        *bytes = rest;
        Some(front)
    }
    let mut cases = Vec::new();
    while !bytes.is_empty() {
        let mut lengths = [0; 3];
        for length in &mut lengths {
            let field = take(&mut bytes, 4)?.try_into().ok()?;
            *length = u32::from_le_bytes(field) as usize;
        }
        let [table, schedule, log_length] = lengths;
        cases.push(Case {
            table: take(&mut bytes, table)?.to_vec(),
            schedule: take(&mut bytes, schedule)?.to_vec(),
            log_length,
        });
    }
    Some(cases)
}

/// The expected text, and what happened in desk's runs and in the second runs.
pub fn expected(cases: &[Case]) -> (String, Tally, Tally) {
    let (mut first, mut second) = (Tally::default(), Tally::default());
    let mut text = String::new();
    for (number, case) in cases.iter().enumerate() {
        writeln!(text, "case {number}").unwrap();
        match desk::read_files(&case.table, &case.schedule) {
            Err(bad) => {
                first.refused_files += 1;
                second.refused_files += 1;
                text.push_str(&desk::refused(bad));
            }
            Ok((table, deliveries)) => {
                let mut watch = first.watch(&table);
                text.push_str(&desk::run(&table, &deliveries, |outcome| {
                    watch.see(outcome)
                }));
                whole_run(&mut text, &table, &deliveries, case.log_length, &mut second);
            }
        }
    }
    writeln!(text, "{} cases", cases.len()).unwrap();
    (text, first, second)
}

/// The second run: all deliveries, refused or not, and everything it leaves.
fn whole_run(
    text: &mut String,
    table: &Table,
    deliveries: &[Delivery],
    log_length: usize,
    tally: &mut Tally,
) {
    let mut watch = tally.watch(table);
    let mut log = vec![LOG_BEFORE; log_length];
    let mut state = State::fresh(table).expect("an accepted table keeps the rules");
    text.push_str("answers ");
    for &delivery in deliveries {
        let (after, outcome) = deliver(table, state, &mut log, delivery);
        state = after;
        watch.see(&outcome);
        let answer = outcome.map_or_else(Refusal::number, |_| 0);
        write!(text, "{answer:x}").unwrap();
    }
    text.push_str("\nlog ");
    for byte in log {
        write!(text, "{byte:02x}").unwrap();
    }
    text.push('\n');
    write_state(text, table, &state).unwrap();
}

fn write_state(text: &mut String, table: &Table, state: &State) -> fmt::Result {
    for t in table.task_numbers() {
        let task = state.task(t);
        write!(text, "task {t} state {}", task.state)?;
        match task.mode {
            TaskMode::Free => write!(text, " free")?,
            TaskMode::Held { gate, vector } => write!(text, " held {gate} {vector}")?,
        }
        if !task.waiting.is_empty() {
            write!(text, " waiting")?;
        }
        for request in &task.waiting {
            write!(text, " {}.{}", request.gate, request.vector)?;
        }
        writeln!(text)?;
    }
    for g in table.gate_numbers() {
        let gate = state.gate(g);
        write!(text, "gate {g} offers {}", gate.offers.bits())?;
        match gate.mode {
            GateMode::Idle => writeln!(text, " idle")?,
            GateMode::Dealing(vector) => writeln!(text, " dealing {vector}")?,
        }
    }
    for (channel, queue) in state.channels() {
        write!(
            text,
            "channel {}-{}",
            channel.from.endpoint(),
            channel.to.endpoint()
        )?;
        for message in queue {
            match message {
                Message::Ready => write!(text, " ready")?,
                Message::Lock(lock) => write!(text, " lock {}.{}", lock.gate, lock.vector)?,
                Message::Commit(gate) => write!(text, " commit {gate}")?,
                Message::Abort(gate) => write!(text, " abort {gate}")?,
            }
        }
        writeln!(text)?;
    }
    Ok(())
}

/// How often what happened.
#[derive(Default)]
pub struct Tally {
    pub refused_files: usize,
    pub runs: usize,
    pub answers: [usize; 13],
    pub merged_readys: usize,
    pub waiting_requests: usize,
    pub longest_waiting_list: usize,
    pub many_entries: usize,
    pub most_entries: usize,
    pub aborts: usize,
    pub offsets: usize,
    pub self_loops: usize,
    pub entries: usize,
    pub one_task: usize,
    pub four_task: usize,
}

impl Tally {
    pub fn watch<'a>(&'a mut self, table: &'a Table) -> Watch<'a> {
        self.runs += 1;
        Watch {
            tally: self,
            table,
            moves: [0; Table::MAX_TASKS],
            moves_when_dealt: [[0; Table::MAX_TASKS]; Table::MAX_GATES],
        }
    }

    pub fn lines(&self) -> Vec<(&'static str, usize)> {
        vec![
            ("files refused", self.refused_files),
            ("runs", self.runs),
            ("deliveries done (0)", self.answers[0]),
            ("no such channel (8)", self.answers[8]),
            ("channel empty (9)", self.answers[9]),
            ("log full (10)", self.answers[10]),
            ("range rule (11)", self.answers[11]),
            ("excluded (12)", self.answers[12]),
            ("log entries", self.entries),
            ("of a one-task vector", self.one_task),
            ("of a four-task vector", self.four_task),
            ("deliveries with 2 or more entries", self.many_entries),
            ("most entries in one delivery", self.most_entries),
            ("merged READYs", self.merged_readys),
            ("waiting requests", self.waiting_requests),
            ("longest waiting list", self.longest_waiting_list),
            ("ABORTs decided", self.aborts),
            ("offset synchronizations", self.offsets),
            ("self-loops", self.self_loops),
        ]
    }
}

/// What happened in the runs, next to each other.
pub fn print_tallies(desk: &Tally, whole: &Tally) {
    println!("{:36}{:>12}{:>12}", "", "desk's runs", "second runs");
    for ((name, first), (_, second)) in desk.lines().into_iter().zip(whole.lines()) {
        println!("{name:36}{first:>12}{second:>12}");
    }
}

/// Follows one run on behalf of a tally.
pub struct Watch<'a> {
    tally: &'a mut Tally,
    table: &'a Table,
    moves: [usize; Table::MAX_TASKS],
    moves_when_dealt: [[usize; Table::MAX_TASKS]; Table::MAX_GATES],
}

impl Watch<'_> {
    pub fn see(&mut self, outcome: &Result<Vec<Event>, Refusal>) {
        let events = match outcome {
            Ok(events) => events,
            Err(refusal) => {
                self.tally.answers[usize::from(refusal.number())] += 1;
                return;
            }
        };
        self.tally.answers[0] += 1;
        let before = self.tally.entries;
        for event in events {
            self.count(event);
        }
        let written = self.tally.entries - before;
        self.tally.many_entries += usize::from(written >= 2);
        self.tally.most_entries = self.tally.most_entries.max(written);
    }

    fn count(&mut self, event: &Event) {
        let tally = &mut *self.tally;
        match *event {
            Event::Dealt { gate } => self.moves_when_dealt[gate.index()] = self.moves,
            Event::Waits { length } => {
                tally.waiting_requests += 1;
                tally.longest_waiting_list = tally.longest_waiting_list.max(length);
            }
            Event::Accepted { task, gate } => {
                let moved =
                    self.moves[task.index()] != self.moves_when_dealt[gate.index()][task.index()];
                tally.offsets += usize::from(moved);
            }
            Event::AbortSent => tally.aborts += 1,
            Event::Fired(entry) => {
                tally.entries += 1;
                match self.table.vectors(entry.gate)[usize::from(entry.vector)]
                    .tasks()
                    .count()
                {
                    1 => tally.one_task += 1,
                    4 => tally.four_task += 1,
                    _ => (),
                }
            }
            Event::Moved { task, from, to } => {
                self.moves[task.index()] += 1;
                tally.self_loops += usize::from(from == to);
            }
            Event::MergedReady => tally.merged_readys += 1,
        }
    }
}
