//! The paper's definitions: files, state, Fresh, delivery and the simple machine.

use std::collections::{BTreeMap, VecDeque};
use std::fmt;

/// Every answer other than 0, with the paper's number.
#[derive(Clone, Copy, PartialEq, Eq, Debug)]
pub enum Refusal {
    CutOff = 1,
    Kind = 2,
    BodyLength = 3,
    FieldRange = 4,
    Order = 5,
    Missing = 6,
    TooMany = 7,
    NoChannel = 8,
    ChannelEmpty = 9,
    LogFull = 10,
    RangeRule = 11,
    Excluded = 12,
}

impl Refusal {
    pub fn number(self) -> u8 {
        self as u8
    }
}

/// A refused file: the answer and the place it names.
#[derive(Clone, Copy, PartialEq, Eq, Debug)]
pub struct BadFile {
    pub why: Refusal,
    pub place: usize,
}

#[derive(Clone, Copy, PartialEq, Eq, PartialOrd, Ord, Debug)]
pub struct TaskNo(u8);

#[derive(Clone, Copy, PartialEq, Eq, PartialOrd, Ord, Debug)]
pub struct GateNo(u8);

impl TaskNo {
    pub fn index(self) -> usize {
        usize::from(self.0)
    }
}

impl GateNo {
    pub fn index(self) -> usize {
        usize::from(self.0)
    }
}

impl fmt::Display for TaskNo {
    fn fmt(&self, f: &mut fmt::Formatter) -> fmt::Result {
        self.0.fmt(f)
    }
}

impl fmt::Display for GateNo {
    fn fmt(&self, f: &mut fmt::Formatter) -> fmt::Result {
        self.0.fmt(f)
    }
}

#[derive(Clone, Copy, PartialEq, Eq, Debug, Default)]
pub struct TaskSet(u16);

impl TaskSet {
    pub fn bits(self) -> u16 {
        self.0
    }

    pub fn tasks(self) -> impl DoubleEndedIterator<Item = TaskNo> {
        (0..16u8).filter(move |t| self.0 >> t & 1 == 1).map(TaskNo)
    }

    pub fn contains(self, task: TaskNo) -> bool {
        self.0 >> task.0 & 1 == 1
    }

    pub fn is_subset(self, other: TaskSet) -> bool {
        self.0 & !other.0 == 0
    }

    fn is_empty(self) -> bool {
        self.0 == 0
    }

    fn with(self, other: TaskSet) -> TaskSet {
        TaskSet(self.0 | other.0)
    }

    fn without(self, other: TaskSet) -> TaskSet {
        TaskSet(self.0 & !other.0)
    }
}

impl From<TaskNo> for TaskSet {
    fn from(task: TaskNo) -> TaskSet {
        TaskSet(1 << task.0)
    }
}

// ---------------------------------------------------------------- files

/// Body length by record kind; there is no kind 0.
pub const BODY_LENGTH: [usize; 6] = [0, 2, 3, 4, 3, 2];

const SYSTEM: u16 = 1;
const TASK: u16 = 2;
const TRANSITION: u16 = 3;
const VECTOR: u16 = 4;
const DELIVERY: u16 = 5;

const HEAD: usize = 4;

struct Head {
    length: usize,
    kind: u16,
}

fn read_head(bytes: &[u8]) -> Result<Head, Refusal> {
    match *bytes {
        [l0, l1, k0, k1, ..] => Ok(Head {
            length: usize::from(u16::from_le_bytes([l0, l1])),
            kind: u16::from_le_bytes([k0, k1]),
        }),
        _ => Err(Refusal::CutOff),
    }
}

/// The body behind a head whose kind is already known to be 1 to 5.
fn read_body<'b>(bytes: &'b [u8], head: &Head) -> Result<&'b [u8], Refusal> {
    if head.length != BODY_LENGTH[usize::from(head.kind)] {
        return Err(Refusal::BodyLength);
    }
    bytes.get(HEAD..HEAD + head.length).ok_or(Refusal::CutOff)
}

pub fn write_record(kind: usize, body: &[u8]) -> Vec<u8> {
    assert_eq!(body.len(), BODY_LENGTH[kind]);
    let mut bytes = vec![BODY_LENGTH[kind] as u8, 0, kind as u8, 0];
    bytes.extend_from_slice(body);
    bytes
}

#[derive(Clone, Copy, PartialEq, Eq, Debug)]
pub struct TaskRow {
    pub states: u8,
    pub start: u8,
}

#[derive(Clone, PartialEq, Eq, Debug)]
pub struct Table {
    tasks: Vec<TaskRow>,
    /// By gate, then by vector number.
    vectors: Vec<Vec<TaskSet>>,
    transitions: BTreeMap<(TaskNo, u8, GateNo), u8>,
}

impl Table {
    pub const MAX_TASKS: usize = 16;
    pub const MAX_GATES: usize = 16;
    pub const MAX_STATES: usize = 16;
    pub const MAX_VECTORS: usize = 8;

    pub fn empty() -> Table {
        Table {
            tasks: Vec::new(),
            vectors: Vec::new(),
            transitions: BTreeMap::new(),
        }
    }

    pub fn read(bytes: &[u8]) -> Result<Table, BadFile> {
        let mut loader = Loader::new();
        let mut place = 0;
        while place < bytes.len() {
            place += loader
                .record(&bytes[place..])
                .map_err(|why| BadFile { why, place })?;
        }
        if loader.tasks_missing() {
            return Err(BadFile {
                why: Refusal::Missing,
                place,
            });
        }
        Ok(loader.table)
    }

    pub fn task_numbers(&self) -> impl Iterator<Item = TaskNo> {
        (0..self.tasks.len() as u8).map(TaskNo)
    }

    pub fn gate_numbers(&self) -> impl Iterator<Item = GateNo> {
        (0..self.vectors.len() as u8).map(GateNo)
    }

    pub fn start(&self, task: TaskNo) -> u8 {
        self.tasks[task.index()].start
    }

    pub fn vectors(&self, gate: GateNo) -> &[TaskSet] {
        &self.vectors[gate.index()]
    }

    /// Where the transition leads; `None` is "not ready".
    pub fn transition(&self, task: TaskNo, state: u8, gate: GateNo) -> Option<u8> {
        self.transitions.get(&(task, state, gate)).copied()
    }

    fn present_tasks(&self) -> TaskSet {
        TaskSet(((1u32 << self.tasks.len()) - 1) as u16)
    }

    fn has_task(&self, task: TaskNo) -> bool {
        task.index() < self.tasks.len()
    }

    fn has_gate(&self, gate: GateNo) -> bool {
        gate.index() < self.vectors.len()
    }

    fn vector(&self, gate: GateNo, vector: u8) -> Option<TaskSet> {
        self.vectors
            .get(gate.index())?
            .get(usize::from(vector))
            .copied()
    }

    fn keeps_rules(&self) -> bool {
        let in_range = |task: TaskNo, state: u8| {
            self.tasks
                .get(task.index())
                .is_some_and(|row| state < row.states)
        };
        (1..=Table::MAX_TASKS).contains(&self.tasks.len())
            && (1..=Table::MAX_GATES).contains(&self.vectors.len())
            && self.tasks.iter().all(|row| {
                (1..=Table::MAX_STATES).contains(&usize::from(row.states)) && row.start < row.states
            })
            && self.transitions.iter().all(|(&(task, from, gate), &to)| {
                in_range(task, from) && self.has_gate(gate) && in_range(task, to)
            })
            && self.vectors.iter().all(|vectors| {
                vectors.len() <= Table::MAX_VECTORS
                    && vectors.iter().enumerate().all(|(i, &mask)| {
                        !mask.is_empty()
                            && mask.is_subset(self.present_tasks())
                            && !vectors[..i].contains(&mask)
                    })
            })
    }
}

/// A table while its records come in.
struct Loader {
    table: Table,
    announced_tasks: usize,
    last_kind: Option<u16>,
    last_vector_gate: GateNo,
}

impl Loader {
    fn new() -> Loader {
        Loader {
            table: Table::empty(),
            announced_tasks: 0,
            last_kind: None,
            last_vector_gate: GateNo(0),
        }
    }

    fn tasks_missing(&self) -> bool {
        self.last_kind.is_none() || self.table.tasks.len() < self.announced_tasks
    }

    /// Takes the record at the front and says how long it is.
    fn record(&mut self, bytes: &[u8]) -> Result<usize, Refusal> {
        let head = read_head(bytes)?;
        let allowed = match self.last_kind {
            None => head.kind == SYSTEM,
            Some(last) => (last.max(TASK)..=VECTOR).contains(&head.kind),
        };
        if !allowed {
            return Err(Refusal::Kind);
        }
        if head.kind > TASK && self.tasks_missing() {
            return Err(Refusal::Missing);
        }
        match (head.kind, read_body(bytes, &head)?) {
            (SYSTEM, &[tasks, gates]) => self.system(tasks, gates)?,
            (TASK, &[number, states, start]) => {
                self.task(TaskNo(number), TaskRow { states, start })?
            }
            (TRANSITION, &[task, from, gate, to]) => {
                self.transition(TaskNo(task), from, GateNo(gate), to)?
            }
            (VECTOR, &[gate, low, high]) => {
                self.vector(GateNo(gate), TaskSet(u16::from_le_bytes([low, high])))?
            }
            _ => unreachable!("a read body has its kind's length"),
        }
        self.last_kind = Some(head.kind);
        Ok(HEAD + head.length)
    }

    fn system(&mut self, tasks: u8, gates: u8) -> Result<(), Refusal> {
        let (tasks, gates) = (usize::from(tasks), usize::from(gates));
        range((1..=Table::MAX_TASKS).contains(&tasks) && (1..=Table::MAX_GATES).contains(&gates))?;
        self.announced_tasks = tasks;
        self.table.vectors = vec![Vec::new(); gates];
        Ok(())
    }

    fn task(&mut self, task: TaskNo, row: TaskRow) -> Result<(), Refusal> {
        range(task.index() < self.announced_tasks)?;
        range((1..=Table::MAX_STATES).contains(&usize::from(row.states)))?;
        range(row.start < row.states)?;
        if task.index() != self.table.tasks.len() {
            return Err(Refusal::Order);
        }
        self.table.tasks.push(row);
        Ok(())
    }

    fn transition(&mut self, task: TaskNo, from: u8, gate: GateNo, to: u8) -> Result<(), Refusal> {
        range(self.table.has_task(task))?;
        let states = self.table.tasks[task.index()].states;
        range(from < states && self.table.has_gate(gate) && to < states)?;
        let key = (task, from, gate);
        match self.table.transitions.last_key_value() {
            Some((&last, _)) if key <= last => Err(Refusal::Order),
            _ => {
                self.table.transitions.insert(key, to);
                Ok(())
            }
        }
    }

    fn vector(&mut self, gate: GateNo, mask: TaskSet) -> Result<(), Refusal> {
        range(self.table.has_gate(gate))?;
        range(!mask.is_empty() && mask.is_subset(self.table.present_tasks()))?;
        let vectors = &mut self.table.vectors[gate.index()];
        if vectors.len() == Table::MAX_VECTORS {
            return Err(Refusal::TooMany);
        }
        if gate < self.last_vector_gate || vectors.contains(&mask) {
            return Err(Refusal::Order);
        }
        vectors.push(mask);
        self.last_vector_gate = gate;
        Ok(())
    }
}

fn range(holds: bool) -> Result<(), Refusal> {
    if holds {
        Ok(())
    } else {
        Err(Refusal::FieldRange)
    }
}

/// A delivery as the schedule names it: endpoints not yet judged.
#[derive(Clone, Copy, PartialEq, Eq, Debug)]
pub struct Delivery {
    pub from: u8,
    pub to: u8,
}

pub const SCHEDULE_ROOM: usize = 60_000;

pub fn read_schedule(bytes: &[u8]) -> Result<Vec<Delivery>, BadFile> {
    if bytes.len() > SCHEDULE_ROOM {
        return Err(BadFile {
            why: Refusal::TooMany,
            place: SCHEDULE_ROOM,
        });
    }
    let mut deliveries = Vec::new();
    let mut place = 0;
    while place < bytes.len() {
        let delivery = read_delivery(&bytes[place..]).map_err(|why| BadFile { why, place })?;
        deliveries.push(delivery);
        place += HEAD + BODY_LENGTH[usize::from(DELIVERY)];
    }
    Ok(deliveries)
}

fn read_delivery(bytes: &[u8]) -> Result<Delivery, Refusal> {
    let head = read_head(bytes)?;
    if head.kind != DELIVERY {
        return Err(Refusal::Kind);
    }
    let body = read_body(bytes, &head)?;
    Ok(Delivery {
        from: body[0],
        to: body[1],
    })
}

// ---------------------------------------------------------------- state

#[derive(Clone, Copy, PartialEq, Eq, Debug)]
pub struct LockRequest {
    pub gate: GateNo,
    pub vector: u8,
}

#[derive(Clone, Copy, PartialEq, Eq, Debug)]
pub enum Message {
    Ready,
    Lock(LockRequest),
    Commit(GateNo),
    Abort(GateNo),
}

#[derive(Clone, Copy, PartialEq, Eq, Debug)]
pub enum TaskMode {
    Free,
    Held { gate: GateNo, vector: u8 },
}

#[derive(Clone, PartialEq, Eq, Debug)]
pub struct Task {
    pub state: u8,
    pub mode: TaskMode,
    pub waiting: VecDeque<LockRequest>,
}

#[derive(Clone, Copy, PartialEq, Eq, Debug)]
pub enum GateMode {
    Idle,
    Dealing(u8),
}

#[derive(Clone, PartialEq, Eq, Debug)]
pub struct Gate {
    pub offers: TaskSet,
    pub mode: GateMode,
}

/// Ordered as the endpoints 0 to 31 are.
#[derive(Clone, Copy, PartialEq, Eq, PartialOrd, Ord, Debug)]
pub enum Party {
    Task(TaskNo),
    Gate(GateNo),
}

impl Party {
    const FIRST_GATE: u8 = 16;

    fn resolve(table: &Table, endpoint: u8) -> Option<Party> {
        let party = match endpoint.checked_sub(Party::FIRST_GATE) {
            None => Party::Task(TaskNo(endpoint)),
            Some(gate) => Party::Gate(GateNo(gate)),
        };
        party.is_present(table).then_some(party)
    }

    pub fn endpoint(self) -> u8 {
        match self {
            Party::Task(task) => task.0,
            Party::Gate(gate) => gate.0 + Party::FIRST_GATE,
        }
    }

    fn is_present(self, table: &Table) -> bool {
        match self {
            Party::Task(task) => table.has_task(task),
            Party::Gate(gate) => table.has_gate(gate),
        }
    }
}

#[derive(Clone, Copy, PartialEq, Eq, PartialOrd, Ord, Debug)]
pub struct Channel {
    pub from: Party,
    pub to: Party,
}

impl Channel {
    fn new(from: Party, to: Party) -> Channel {
        Channel { from, to }
    }

    fn resolve(table: &Table, delivery: Delivery) -> Option<Channel> {
        let from = Party::resolve(table, delivery.from)?;
        let to = Party::resolve(table, delivery.to)?;
        Some(Channel { from, to }).filter(|channel| channel.exists(table))
    }

    fn exists(self, table: &Table) -> bool {
        self.from.is_present(table)
            && self.to.is_present(table)
            && self.from != self.to
            && !matches!((self.from, self.to), (Party::Gate(_), Party::Gate(_)))
    }

    fn room(self) -> usize {
        match (self.from, self.to) {
            (Party::Task(_), Party::Gate(_)) => 3,
            _ => 1,
        }
    }

    pub fn delivery(self) -> Delivery {
        Delivery {
            from: self.from.endpoint(),
            to: self.to.endpoint(),
        }
    }

    /// Rule 11's view of one travelling message.
    fn may_carry(self, table: &Table, message: Message) -> bool {
        use Message::*;
        match (self.from, self.to, message) {
            (Party::Task(_), Party::Gate(_), Ready) => true,
            (Party::Task(_), Party::Gate(to), Commit(gate) | Abort(gate)) => gate == to,
            (Party::Gate(from), Party::Task(to), Lock(request)) => {
                request.gate == from && request.can_reach(table, to)
            }
            (Party::Task(from), Party::Task(to), Lock(request)) => {
                from < to && request.can_reach(table, to)
            }
            (Party::Task(from), Party::Task(to), Commit(gate) | Abort(gate)) => {
                from > to && table.has_gate(gate)
            }
            _ => false,
        }
    }
}

impl LockRequest {
    fn can_reach(self, table: &Table, task: TaskNo) -> bool {
        table
            .vector(self.gate, self.vector)
            .is_some_and(|mask| mask.contains(task))
    }
}

#[derive(Clone, PartialEq, Eq, Debug)]
pub struct State {
    tasks: Vec<Task>,
    gates: Vec<Gate>,
    /// Only the channels that hold messages.
    channels: BTreeMap<Channel, VecDeque<Message>>,
    log_count: usize,
}

impl State {
    pub const WAITING_ROOM: usize = 16;

    pub fn empty() -> State {
        State {
            tasks: Vec::new(),
            gates: Vec::new(),
            channels: BTreeMap::new(),
            log_count: 0,
        }
    }

    pub fn fresh(table: &Table) -> Result<State, Refusal> {
        if !table.keeps_rules() {
            return Err(Refusal::RangeRule);
        }
        let mut state = State::empty();
        state.tasks = table
            .tasks
            .iter()
            .map(|row| Task {
                state: row.start,
                mode: TaskMode::Free,
                waiting: VecDeque::new(),
            })
            .collect();
        state.gates = vec![
            Gate {
                offers: TaskSet::default(),
                mode: GateMode::Idle
            };
            table.vectors.len()
        ];
        for task in table.task_numbers() {
            for gate in table.gate_numbers() {
                if table.transition(task, table.start(task), gate).is_some() {
                    let channel = Channel::new(Party::Task(task), Party::Gate(gate));
                    state = state.put(channel, Message::Ready)?;
                }
            }
        }
        Ok(state)
    }

    pub fn task(&self, task: TaskNo) -> &Task {
        &self.tasks[task.index()]
    }

    pub fn gate(&self, gate: GateNo) -> &Gate {
        &self.gates[gate.index()]
    }

    pub fn channels(&self) -> &BTreeMap<Channel, VecDeque<Message>> {
        &self.channels
    }

    pub fn log_count(&self) -> usize {
        self.log_count
    }

    pub fn is_quiet(&self) -> bool {
        self.channels.is_empty()
    }

    fn newest(&self, channel: Channel) -> Option<Message> {
        self.channels.get(&channel)?.back().copied()
    }

    fn pop(mut self, channel: Channel) -> (State, Option<Message>) {
        let Some(queue) = self.channels.get_mut(&channel) else {
            return (self, None);
        };
        let oldest = queue.pop_front();
        if queue.is_empty() {
            self.channels.remove(&channel);
        }
        (self, oldest)
    }

    fn put(mut self, channel: Channel, message: Message) -> Result<State, Refusal> {
        let queue = self.channels.entry(channel).or_default();
        if queue.len() >= channel.room() {
            return Err(Refusal::Excluded);
        }
        queue.push_back(message);
        Ok(self)
    }

    /// Rule 11, except for what these types cannot hold: unused room and
    /// absent parties have no place here, only the numbers of parties can be wrong.
    pub fn keeps_rules(&self, table: &Table, log_length: usize) -> bool {
        table.keeps_rules()
            && self.log_count <= log_length / 2
            && self.tasks.len() == table.tasks.len()
            && self.gates.len() == table.vectors.len()
            && table
                .task_numbers()
                .all(|t| self.task_keeps_rules(table, t))
            && table.gate_numbers().all(|g| {
                let gate = self.gate(g);
                gate.offers.is_subset(table.present_tasks())
                    && match gate.mode {
                        GateMode::Idle => true,
                        GateMode::Dealing(vector) => table.vector(g, vector).is_some(),
                    }
            })
            && self.channels.iter().all(|(channel, queue)| {
                channel.exists(table)
                    && queue.len() <= channel.room()
                    && queue
                        .iter()
                        .all(|&message| channel.may_carry(table, message))
            })
    }

    fn task_keeps_rules(&self, table: &Table, t: TaskNo) -> bool {
        let task = self.task(t);
        task.state < table.tasks[t.index()].states
            && task.waiting.len() <= State::WAITING_ROOM
            && task
                .waiting
                .iter()
                .all(|request| request.can_reach(table, t))
            && match task.mode {
                TaskMode::Free => task.waiting.is_empty(),
                TaskMode::Held { gate, vector } => table
                    .vector(gate, vector)
                    .is_some_and(|mask| mask.contains(t) && mask.tasks().any(|other| other > t)),
            }
    }
}

// ------------------------------------------------------------- delivery

/// One rendezvous, as the log names it.
#[derive(Clone, Copy, PartialEq, Eq, Debug)]
pub struct Entry {
    pub gate: GateNo,
    pub vector: u8,
}

/// What a delivery did, for those who count; no rule reads it.
#[derive(Clone, Copy, PartialEq, Eq, Debug)]
pub enum Event {
    Dealt { gate: GateNo },
    Waits { length: usize },
    Accepted { task: TaskNo, gate: GateNo },
    AbortSent,
    Fired(Entry),
    Moved { task: TaskNo, from: u8, to: u8 },
    MergedReady,
}

/// Delivers the oldest message of the channel named. A refusal hands the state
/// back as it was and leaves the log alone.
pub fn deliver(
    table: &Table,
    state: State,
    log: &mut [u8],
    delivery: Delivery,
) -> (State, Result<Vec<Event>, Refusal>) {
    if !state.keeps_rules(table, log.len()) {
        return (state, Err(Refusal::RangeRule));
    }
    let Some(channel) = Channel::resolve(table, delivery) else {
        return (state, Err(Refusal::NoChannel));
    };
    if !state.channels.contains_key(&channel) {
        return (state, Err(Refusal::ChannelEmpty));
    }
    match Work::begin(table, state.clone()).deliver(channel) {
        Err(refusal) => (state, Err(refusal)),
        Ok(work) if state.log_count + work.entries.len() > log.len() / 2 => {
            (state, Err(Refusal::LogFull))
        }
        Ok(work) => {
            let mut after = work.state;
            for entry in work.entries {
                log[2 * after.log_count] = entry.gate.0;
                log[2 * after.log_count + 1] = entry.vector;
                after.log_count += 1;
            }
            (after, Ok(work.events))
        }
    }
}

/// A delivery under way: it may still turn out to be refused.
struct Work<'t> {
    table: &'t Table,
    state: State,
    entries: Vec<Entry>,
    events: Vec<Event>,
}

type Going<'t> = Result<Work<'t>, Refusal>;

impl<'t> Work<'t> {
    fn begin(table: &'t Table, state: State) -> Work<'t> {
        Work {
            table,
            state,
            entries: Vec::new(),
            events: Vec::new(),
        }
    }

    fn deliver(mut self, channel: Channel) -> Going<'t> {
        let (state, oldest) = self.state.pop(channel);
        self.state = state;
        let message = oldest.ok_or(Refusal::ChannelEmpty)?;
        match (channel.from, channel.to) {
            (Party::Task(from), Party::Gate(to)) => self.at_gate(to, from, message),
            (_, Party::Task(to)) => self.at_task(to, message),
            (Party::Gate(_), Party::Gate(_)) => Err(Refusal::NoChannel),
        }
    }

    fn at_gate(mut self, g: GateNo, from: TaskNo, message: Message) -> Going<'t> {
        let gate = &mut self.state.gates[g.index()];
        let sender = TaskSet::from(from);
        match message {
            Message::Ready => gate.offers = gate.offers.with(sender),
            Message::Commit(_) | Message::Abort(_) => {
                let GateMode::Dealing(vector) = gate.mode else {
                    return Err(Refusal::Excluded);
                };
                let dealt = self.table.vectors(g)[usize::from(vector)];
                if !dealt.contains(from) {
                    return Err(Refusal::Excluded);
                }
                if matches!(message, Message::Abort(_)) {
                    gate.offers = gate.offers.with(dealt);
                }
                gate.offers = gate.offers.without(sender);
                gate.mode = GateMode::Idle;
            }
            Message::Lock(_) => return Err(Refusal::RangeRule),
        }
        self.search(g)
    }

    fn search(mut self, g: GateNo) -> Going<'t> {
        let gate = &mut self.state.gates[g.index()];
        if gate.mode != GateMode::Idle {
            return Ok(self);
        }
        let vectors = self.table.vectors(g);
        let Some(found) = vectors.iter().position(|mask| mask.is_subset(gate.offers)) else {
            return Ok(self);
        };
        let mask = vectors[found];
        let vector = found as u8;
        gate.mode = GateMode::Dealing(vector);
        gate.offers = gate.offers.without(mask);
        self.events.push(Event::Dealt { gate: g });
        let lowest = mask.tasks().next().expect("a mask is never 0");
        let request = LockRequest { gate: g, vector };
        self.send(Party::Gate(g), Party::Task(lowest), Message::Lock(request))
    }

    fn at_task(mut self, t: TaskNo, message: Message) -> Going<'t> {
        let task = &mut self.state.tasks[t.index()];
        match (message, task.mode) {
            (Message::Lock(request), TaskMode::Free) => self.handle(t, request),
            (Message::Lock(request), TaskMode::Held { .. }) => {
                if task.waiting.len() == State::WAITING_ROOM {
                    return Err(Refusal::Excluded);
                }
                task.waiting.push_back(request);
                self.events.push(Event::Waits {
                    length: task.waiting.len(),
                });
                Ok(self)
            }
            (Message::Commit(gate), TaskMode::Held { gate: holder, .. }) if gate == holder => {
                let to = self
                    .table
                    .transition(t, task.state, gate)
                    .ok_or(Refusal::Excluded)?;
                task.mode = TaskMode::Free;
                self.step(t, to)?.handle_waiting(t)
            }
            (Message::Abort(gate), TaskMode::Held { gate: holder, .. }) if gate == holder => {
                task.mode = TaskMode::Free;
                self.handle_waiting(t)
            }
            (Message::Commit(_) | Message::Abort(_), _) => Err(Refusal::Excluded),
            (Message::Ready, _) => Err(Refusal::RangeRule),
        }
    }

    fn handle_waiting(mut self, t: TaskNo) -> Going<'t> {
        while self.state.task(t).mode == TaskMode::Free {
            let Some(request) = self.state.tasks[t.index()].waiting.pop_front() else {
                break;
            };
            self = self.handle(t, request)?;
        }
        Ok(self)
    }

    /// A Free task and a lock request.
    fn handle(mut self, t: TaskNo, request: LockRequest) -> Going<'t> {
        let LockRequest { gate, vector } = request;
        let mask = self.table.vectors(gate)[usize::from(vector)];
        let Some(to) = self.table.transition(t, self.state.task(t).state, gate) else {
            self.events.push(Event::AbortSent);
            return self.tell_result(t, gate, mask, Message::Abort(gate));
        };
        self.events.push(Event::Accepted { task: t, gate });
        if let Some(next) = mask.tasks().find(|&other| other > t) {
            self.state.tasks[t.index()].mode = TaskMode::Held { gate, vector };
            return self.send(Party::Task(t), Party::Task(next), Message::Lock(request));
        }
        let entry = Entry { gate, vector };
        self.entries.push(entry);
        self.events.push(Event::Fired(entry));
        self.tell_result(t, gate, mask, Message::Commit(gate))?
            .step(t, to)
    }

    fn tell_result(mut self, t: TaskNo, gate: GateNo, mask: TaskSet, result: Message) -> Going<'t> {
        for lower in mask.tasks().take_while(|&other| other < t) {
            self = self.send(Party::Task(t), Party::Task(lower), result)?;
        }
        self.send(Party::Task(t), Party::Gate(gate), result)
    }

    /// Moves and announces.
    fn step(mut self, t: TaskNo, to: u8) -> Going<'t> {
        let from = std::mem::replace(&mut self.state.tasks[t.index()].state, to);
        self.events.push(Event::Moved { task: t, from, to });
        for gate in self.table.gate_numbers() {
            if self.table.transition(t, to, gate).is_some() {
                self = self.announce(t, gate)?;
            }
        }
        Ok(self)
    }

    fn announce(mut self, t: TaskNo, gate: GateNo) -> Going<'t> {
        let (from, to) = (Party::Task(t), Party::Gate(gate));
        if self.state.newest(Channel::new(from, to)) == Some(Message::Ready) {
            self.events.push(Event::MergedReady);
            return Ok(self);
        }
        self.send(from, to, Message::Ready)
    }

    fn send(mut self, from: Party, to: Party, message: Message) -> Going<'t> {
        self.state = self.state.put(Channel::new(from, to), message)?;
        Ok(self)
    }
}

/// The first `count` entries of a log that a run has written.
pub fn entries(log: &[u8], count: usize) -> impl Iterator<Item = Entry> + '_ {
    log.chunks_exact(2).take(count).map(|pair| Entry {
        gate: GateNo(pair[0]),
        vector: pair[1],
    })
}

// ------------------------------------------------------- simple machine

pub struct SimpleMachine<'t> {
    table: &'t Table,
    states: Vec<u8>,
}

impl<'t> SimpleMachine<'t> {
    pub fn new(table: &'t Table) -> SimpleMachine<'t> {
        SimpleMachine {
            table,
            states: table.tasks.iter().map(|row| row.start).collect(),
        }
    }

    pub fn state(&self, task: TaskNo) -> u8 {
        self.states[task.index()]
    }

    pub fn enabled(&self, gate: GateNo, mask: TaskSet) -> bool {
        mask.tasks()
            .all(|t| self.table.transition(t, self.state(t), gate).is_some())
    }

    /// Fires an enabled vector; `false` means that the entry is not legal here.
    pub fn fire(&mut self, entry: Entry) -> bool {
        let Some(mask) = self.table.vector(entry.gate, entry.vector) else {
            return false;
        };
        if !self.enabled(entry.gate, mask) {
            return false;
        }
        for t in mask.tasks() {
            self.states[t.index()] = self.table.transitions[&(t, self.state(t), entry.gate)];
        }
        true
    }
}

// Below this module, to build states that no run reaches.
#[cfg(test)]
#[path = "tests.rs"]
mod tests;
