//! Each snapshot that a gate is told is a state of the machine in order.
use super::{LAST_BUT_ONE, LOOP, config, run_listing};
use inorder::{Machine, Stepped};
use instructions::Config;
use isa::parse;
use pool::{Gate, Run, Tally};
use snapshots::Snap;
use std::alloc::Global;
use std::process::Abort;
use std::sync::Wait;
use std::sync::atomic::AtomicU64;
use std::sync::atomic::Ordering::SeqCst;
use std::test::*;
use std::thread::Threads;

// The state of the machine in order after each number of instructions.
fn states(alloc: Global, listing: &[u8]) -> Result<Vec<Snap>, Fail> {
    let program = parse(alloc, listing)?;
    let mut machine = Machine::new(alloc, &program)?;
    let mut all = Vec::new(alloc);
    loop {
        all.push(Snap {
            n: machine.count(),
            pc: machine.pc(),
            registers: *machine.registers(),
        })?;
        if let Stepped::Stopped(_) = machine.step() {
            return Ok(all);
        }
    }
}

/// Compares what it is told, and notes the places of it.
#[derive(Drop)]
struct Compared {
    states: Vec<Snap>,
    places: AtomicU64,
    told: AtomicU64,
    wrong: AtomicU64,
}

impl Gate for Compared {
    fn held(&self, _unit: u32, _station: u32) -> bool {
        false
    }

    fn seen(&self, place: u32, snap: &Snap) {
        self.places.fetch_or(1u64 << (place % 64), SeqCst);
        self.told.fetch_add(1, SeqCst);
        let is_state = match self.states.get(snap.n as usize) {
            Some(state) => *state == *snap,
            None => false,
        };
        if !is_state {
            self.wrong.fetch_add(1, SeqCst);
        }
    }

    fn counted(&self, _tally: &Tally) {}
}

// How many snapshots are told in a run, of which places; none is wrong.
fn told<R: Threads + Wait + Sync + Abort>(
    rt: &R,
    alloc: Global,
    config: &Config,
) -> Result<(u64, u64), Fail> {
    let gate = Compared {
        states: states(alloc, LOOP)?,
        places: AtomicU64::new(0),
        told: AtomicU64::new(0),
        wrong: AtomicU64::new(0),
    };
    let Run::Ended(end, _) = run_listing(rt, alloc, LOOP, config, &gate)? else {
        return Err(Fail::from("no end"));
    };
    assert_eq!(*rt; end.n as usize + 1, gate.states.len());
    assert_eq!(*rt; gate.wrong.load(SeqCst), 0);
    Ok((gate.told.load(SeqCst), gate.places.load(SeqCst)))
}

// A place may be refused while it is free, so that one run may have the first alone.
#[test]
fn each_snapshot_is_a_state_in_order_of_one_of_the_places(rt: HostRuntime) -> Result<(), Fail> {
    let mut all = 0;
    for _ in 0..100 {
        if all != 0b1110 {
            let (told, places) = told(&rt, rt.alloc(), &config(16, 3, 1)?)?;
            assert!(rt; 2 <= told && places & 0b10 != 0, "{told} of {places:b}");
            all |= places;
        }
    }
    assert_eq!(rt; all, 0b1110);
    Ok(())
}

#[test]
fn snapshots_are_states_in_order_at_renewed_cores_of_each_size(
    rt: HostRuntime,
) -> Result<(), Fail> {
    for (ring, before) in [(4, 22), (8, 10), (16, 4), (32, 1)] {
        let config = config(ring, 1, LAST_BUT_ONE - before)?;
        let (_told, places) = told(&rt, rt.alloc(), &config)?;
        assert_eq!(rt; places, 0b10, "{ring}");
    }
    Ok(())
}
