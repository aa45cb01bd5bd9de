//! What is measured. A guest's offsets come at run time, so the compiler is kept from knowing them.

use std::hint::black_box;

use crate::contestants::Machine;

pub struct Workload {
    pub name: &'static str,
    /// What an operation is: the unit of the counts.
    pub operation: &'static str,
    /// How many operations there are in a run, and in one of the rounds that the contestants take in turn.
    pub operations: u32,
    pub in_a_round: u32,
}

pub const ALL: [Workload; 4] = [
    Workload {
        name: "loop",
        operation: "write or read of offset 0 in loopback",
        operations: 1_000_000,
        in_a_round: 10_000,
    },
    Workload {
        name: "bulk",
        operation: "input of 64 bytes and their 64 reads",
        operations: 1_000_000,
        in_a_round: 500,
    },
    Workload {
        name: "clock",
        operation: "read of the clock's data register",
        operations: 1_000_000,
        in_a_round: 2_000,
    },
    Workload {
        name: "status",
        operation: "read of the line status register",
        operations: 1_000_000,
        in_a_round: 10_000,
    },
];

impl Workload {
    /// Brings a fresh machine to where the workload starts.
    pub fn prepare(&self, machine: &mut impl Machine) {
        if self.name == "loop" {
            machine.write(4, 0x10);
        }
    }

    /// Answers a sum over what was read, which is the same for all.
    pub fn run(&self, machine: &mut impl Machine, operations: u32) -> u32 {
        match self.name {
            "loop" => loopback(machine, operations),
            "bulk" => bulk(machine, operations),
            "clock" => clock(machine, operations),
            _ => status(machine, operations),
        }
    }
}

#[inline(never)]
fn loopback(machine: &mut impl Machine, operations: u32) -> u32 {
    let mut sum = 0u32;
    for value in 0..operations / 2 {
        machine.write(black_box(0), value as u8);
        sum = sum.wrapping_add(machine.read(black_box(0)).into());
    }
    sum
}

#[inline(never)]
fn bulk(machine: &mut impl Machine, operations: u32) -> u32 {
    let input: [u8; 64] = std::array::from_fn(|place| place as u8);
    let mut sum = 0u32;
    for _ in 0..operations {
        sum = sum.wrapping_add(machine.input(black_box(&input)) as u32);
        for _ in 0..64 {
            sum = sum.wrapping_add(machine.read(black_box(0)).into());
        }
    }
    sum
}

#[inline(never)]
fn clock(machine: &mut impl Machine, operations: u32) -> u32 {
    let mut data = [0; 4];
    for _ in 0..operations {
        machine.clock_read(black_box(0), &mut data);
        black_box(data);
    }
    operations
}

#[inline(never)]
fn status(machine: &mut impl Machine, operations: u32) -> u32 {
    let mut sum = 0u32;
    for _ in 0..operations {
        sum = sum.wrapping_add(machine.read(black_box(5)).into());
    }
    sum
}
