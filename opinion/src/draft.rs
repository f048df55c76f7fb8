//! Tables and schedules on their way into files.

use std::collections::BTreeMap;

use crate::paper::{write_record, Delivery};

/// A table in plain numbers, easy to write down and easy to spoil.
#[derive(Clone)]
pub struct Draft {
    pub gates: u8,
    /// (states, start) by task.
    pub tasks: Vec<(u8, u8)>,
    pub transitions: BTreeMap<(u8, u8, u8), u8>,
    /// (gate, mask) in file order.
    pub vectors: Vec<(u8, u16)>,
}

impl Draft {
    pub fn new(gates: u8, tasks: &[(u8, u8)]) -> Draft {
        Draft {
            gates,
            tasks: tasks.to_vec(),
            transitions: BTreeMap::new(),
            vectors: Vec::new(),
        }
    }

    pub fn step(mut self, task: u8, from: u8, gate: u8, to: u8) -> Draft {
        self.transitions.insert((task, from, gate), to);
        self
    }

    /// Every task loops at every gate from every state.
    pub fn loops(mut self) -> Draft {
        for (task, &(states, _)) in self.tasks.iter().enumerate() {
            for state in 0..states {
                for gate in 0..self.gates {
                    self.transitions.insert((task as u8, state, gate), state);
                }
            }
        }
        self
    }

    pub fn vector(mut self, gate: u8, tasks: &[u8]) -> Draft {
        self.vectors
            .push((gate, tasks.iter().map(|t| 1 << t).sum()));
        self
    }

    pub fn records(&self) -> Vec<Vec<u8>> {
        let mut records = vec![write_record(1, &[self.tasks.len() as u8, self.gates])];
        for (number, &(states, start)) in self.tasks.iter().enumerate() {
            records.push(write_record(2, &[number as u8, states, start]));
        }
        for (&(task, from, gate), &to) in &self.transitions {
            records.push(write_record(3, &[task, from, gate, to]));
        }
        for &(gate, mask) in &self.vectors {
            records.push(vector_record(gate, mask));
        }
        records
    }

    pub fn bytes(&self) -> Vec<u8> {
        self.records().concat()
    }
}

pub fn vector_record(gate: u8, mask: u16) -> Vec<u8> {
    let [low, high] = mask.to_le_bytes();
    write_record(4, &[gate, low, high])
}

pub fn schedule_bytes(deliveries: &[Delivery]) -> Vec<u8> {
    deliveries
        .iter()
        .flat_map(|d| write_record(5, &[d.from, d.to]))
        .collect()
}

/// Reads pairs such as `0-16 16-0`.
pub fn pairs(text: &str) -> Vec<Delivery> {
    text.split_whitespace()
        .map(|pair| {
            let (from, to) = pair.split_once('-').expect("a pair has a dash");
            Delivery {
                from: from.parse().unwrap(),
                to: to.parse().unwrap(),
            }
        })
        .collect()
}

/// The paper's table E.
pub fn table_e() -> Draft {
    Draft::new(2, &[(1, 0), (2, 0), (1, 0)])
        .step(0, 0, 0, 0)
        .step(1, 0, 0, 1)
        .step(1, 0, 1, 1)
        .step(2, 0, 1, 0)
        .vector(0, &[0, 1])
        .vector(1, &[1, 2])
}

/// The paper's schedule for table E.
pub const WORKED_RUN: &str = "0-16 1-16 1-17 2-17 16-0 17-1 0-1 1-2 2-1 1-0 1-16 2-17 2-17";
