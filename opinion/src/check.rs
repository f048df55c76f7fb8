//! The self-check: every reached state of random runs against the paper's promises.

use std::thread;

use crate::cases::LOG_BEFORE;
use crate::desk;
use crate::paper::{
    deliver, entries, Channel, Delivery, GateMode, Message, Party, Refusal, SimpleMachine, State,
    Table, TaskMode,
};
use crate::random::{random_case, Rng};

#[derive(Default)]
pub struct Summary {
    pub cases: usize,
    pub refused_files: usize,
    pub states: usize,
    pub quiet_ends: usize,
    pub longest_channel: usize,
    pub longest_waiting_list: usize,
}

const LONG_LOG: usize = 4_000;

pub fn self_check(seed: u64, count: usize) -> Result<Summary, String> {
    let workers = thread::available_parallelism().map_or(1, |n| n.get());
    let handles: Vec<_> = (0..workers)
        .map(|worker| {
            thread::spawn(move || {
                let mut summary = Summary::default();
                for number in (worker..count).step_by(workers) {
                    check_case(seed, number, &mut summary)
                        .map_err(|fault| format!("seed {seed} case {number}: {fault}"))?;
                }
                Ok::<Summary, String>(summary)
            })
        })
        .collect();
    let mut total = Summary::default();
    for handle in handles {
        let part = handle
            .join()
            .map_err(|_| "a worker panicked".to_string())??;
        total.cases += part.cases;
        total.refused_files += part.refused_files;
        total.states += part.states;
        total.quiet_ends += part.quiet_ends;
        total.longest_channel = total.longest_channel.max(part.longest_channel);
        total.longest_waiting_list = total.longest_waiting_list.max(part.longest_waiting_list);
    }
    Ok(total)
}

fn check_case(seed: u64, number: usize, summary: &mut Summary) -> Result<(), String> {
    // One generator a case, so that the result does not depend on the workers.
    let mut rng = Rng::new(Rng::new(seed).next() ^ Rng::new(number as u64).next());
    let case = random_case(&mut rng);
    summary.cases += 1;
    let Ok((table, deliveries)) = desk::read_files(&case.table, &case.schedule) else {
        summary.refused_files += 1;
        return Ok(());
    };
    check_run(&table, &deliveries, case.log_length, 30, &mut rng, summary)?;
    check_run(&table, &deliveries, LONG_LOG, 200, &mut rng, summary)
}

/// The schedule, then up to `more` random deliveries towards quiet.
fn check_run(
    table: &Table,
    deliveries: &[Delivery],
    log_length: usize,
    more: usize,
    rng: &mut Rng,
    summary: &mut Summary,
) -> Result<(), String> {
    let mut log = vec![LOG_BEFORE; log_length];
    let mut state = State::fresh(table).map_err(|_| "Fresh refused")?;
    let mut audit = Audit {
        table,
        machine: SimpleMachine::new(table),
        replayed: 0,
    };
    audit.state(&state, &log, summary)?;
    let mut scheduled = deliveries.iter();
    for _ in 0..deliveries.len() + more {
        let delivery = match scheduled.next() {
            Some(&delivery) => delivery,
            None => {
                let waiting: Vec<Channel> = state.channels().keys().copied().collect();
                if waiting.is_empty() {
                    break;
                }
                rng.pick(&waiting).delivery()
            }
        };
        let before = (state.clone(), log.clone());
        let (after, outcome) = deliver(table, state, &mut log, delivery);
        state = after;
        match outcome {
            Ok(_) => audit.state(&state, &log, summary)?,
            Err(refusal @ (Refusal::RangeRule | Refusal::Excluded)) => {
                return Err(format!(
                    "{} at {delivery:?} in {:?}",
                    refusal.number(),
                    before.0
                ));
            }
            Err(_) if (&state, &log) != (&before.0, &before.1) => {
                return Err("a refusal changed something".to_string());
            }
            Err(_) => (),
        }
    }
    summary.quiet_ends += usize::from(state.is_quiet());
    Ok(())
}

struct Audit<'t> {
    table: &'t Table,
    machine: SimpleMachine<'t>,
    replayed: usize,
}

impl Audit<'_> {
    fn state(&mut self, state: &State, log: &[u8], summary: &mut Summary) -> Result<(), String> {
        summary.states += 1;
        for entry in entries(log, state.log_count()).skip(self.replayed) {
            if !self.machine.fire(entry) {
                return Err(format!("log entry {entry:?} is not legal"));
            }
        }
        self.replayed = state.log_count();
        if log[2 * self.replayed..]
            .iter()
            .any(|&byte| byte != LOG_BEFORE)
        {
            return Err("a byte behind the log's last entry changed".to_string());
        }
        if !state.keeps_rules(self.table, log.len()) {
            return Err(format!("range rule broken by {state:?}"));
        }
        self.stored_states(state)?;
        self.negotiations(state)?;
        if state.is_quiet() {
            self.quiet(state)?;
        }
        for queue in state.channels().values() {
            summary.longest_channel = summary.longest_channel.max(queue.len());
        }
        for t in self.table.task_numbers() {
            let length = state.task(t).waiting.len();
            summary.longest_waiting_list = summary.longest_waiting_list.max(length);
        }
        Ok(())
    }

    /// A stored state is the replayed one, or one COMMIT behind it.
    fn stored_states(&self, state: &State) -> Result<(), String> {
        for t in self.table.task_numbers() {
            let mut commits = Vec::new();
            for (channel, queue) in state.channels() {
                if channel.to == Party::Task(t) {
                    commits.extend(queue.iter().filter_map(|message| match message {
                        Message::Commit(gate) => Some(*gate),
                        _ => None,
                    }));
                }
            }
            let stored = state.task(t).state;
            let expected = match commits[..] {
                [] => Some(stored),
                [gate] => self.table.transition(t, stored, gate),
                _ => None,
            };
            if expected != Some(self.machine.state(t)) {
                return Err(format!(
                    "task {t} is not where the replay has it: {state:?}"
                ));
            }
        }
        Ok(())
    }

    fn negotiations(&self, state: &State) -> Result<(), String> {
        let mut under_way = [0; Table::MAX_GATES];
        for (channel, queue) in state.channels() {
            for message in queue {
                match (message, channel.to) {
                    (Message::Lock(request), _) => under_way[request.gate.index()] += 1,
                    (Message::Commit(_) | Message::Abort(_), Party::Gate(gate)) => {
                        under_way[gate.index()] += 1
                    }
                    _ => (),
                }
            }
        }
        for t in self.table.task_numbers() {
            for request in &state.task(t).waiting {
                under_way[request.gate.index()] += 1;
            }
        }
        for g in self.table.gate_numbers() {
            let wanted = i32::from(state.gate(g).mode != GateMode::Idle);
            if under_way[g.index()] != wanted {
                return Err(format!(
                    "gate {g} has {} negotiations",
                    under_way[g.index()]
                ));
            }
        }
        Ok(())
    }

    fn quiet(&self, state: &State) -> Result<(), String> {
        if self
            .table
            .task_numbers()
            .any(|t| state.task(t).mode != TaskMode::Free)
        {
            return Err(format!("a task is held at quiet: {state:?}"));
        }
        for g in self.table.gate_numbers() {
            if self
                .table
                .vectors(g)
                .iter()
                .any(|&mask| self.machine.enabled(g, mask))
            {
                return Err(format!("gate {g} could still fire at quiet: {state:?}"));
            }
        }
        Ok(())
    }
}
