//! The text that program `desk` prints.

use std::fmt::Write;

use crate::paper::{
    deliver, entries, read_schedule, BadFile, Delivery, Event, Refusal, State, Table,
};

pub const TABLE_ROOM: usize = 40_000;
pub const LOG_LENGTH: usize = 20_000;

/// The table as `desk` reads it: from the first bytes of its file only.
pub fn read_table(bytes: &[u8]) -> Result<Table, BadFile> {
    Table::read(&bytes[..bytes.len().min(TABLE_ROOM)])
}

/// Both files, the schedule looked at only behind an accepted table.
pub fn read_files(table: &[u8], schedule: &[u8]) -> Result<(Table, Vec<Delivery>), BadFile> {
    let table = read_table(table)?;
    let deliveries = read_schedule(schedule)?;
    Ok((table, deliveries))
}

pub fn desk(table: &[u8], schedule: &[u8]) -> String {
    match read_files(table, schedule) {
        Err(bad) => refused(bad),
        Ok((table, deliveries)) => run(&table, &deliveries, |_| ()),
    }
}

pub fn refused(bad: BadFile) -> String {
    format!("answer {} at {}\n", bad.why.number(), bad.place)
}

/// Delivers until the first refusal; `watch` sees what each delivery did.
pub fn run(
    table: &Table,
    deliveries: &[Delivery],
    mut watch: impl FnMut(&Result<Vec<Event>, Refusal>),
) -> String {
    let mut log = vec![0; LOG_LENGTH];
    let mut state = State::fresh(table).expect("an accepted table keeps the rules");
    let mut answer = 0;
    let mut done = 0;
    for &delivery in deliveries {
        let (after, outcome) = deliver(table, state, &mut log, delivery);
        state = after;
        watch(&outcome);
        if let Err(refusal) = outcome {
            answer = refusal.number();
            break;
        }
        done += 1;
    }
    report(table, &state, &log, answer, done)
}

fn report(table: &Table, state: &State, log: &[u8], answer: u8, done: usize) -> String {
    let mut text = String::new();
    let quiet = if state.is_quiet() { "yes" } else { "no" };
    let count = state.log_count();
    writeln!(
        text,
        "answer {answer} delivered {done} log {count} quiet {quiet}"
    )
    .unwrap();
    for entry in entries(log, count) {
        let mask = table.vectors(entry.gate)[usize::from(entry.vector)].bits();
        writeln!(
            text,
            "fire gate {} vector {} tasks {mask}",
            entry.gate, entry.vector
        )
        .unwrap();
    }
    text.push_str("state");
    for task in table.task_numbers() {
        write!(text, " {}", state.task(task).state).unwrap();
    }
    text.push('\n');
    text
}
