//! Runs on threads, and what their gates are told; a core by hand, where nobody has met another; and whom threads hint.
mod active;
mod hinting;
mod raced;
mod seen;
mod shaken;
mod told;
mod unmet;

use instructions::{Config, NotTaken};
use isa::parse;
use pool::{Gate, Run, run};
use std::alloc::Global;
use std::sync::Wait;
use std::test::Fail;
use std::thread::Threads;

/// The tag from which on a station has two.
const LAST_BUT_ONE: u64 = 268_435_454;

fn config(ring: u64, places: u64, first_tag: u64) -> Result<Config, Fail> {
    Ok(Config::new(ring, 2, 2, places, first_tag, 1_000_000, 50_000_000)?)
}

fn run_listing<R: Threads + Wait + Sync, G: Gate + Sync>(
    rt: &R,
    alloc: Global,
    listing: &[u8],
    config: &Config,
    gate: &G,
) -> Result<Run, Fail> {
    let program = parse(alloc, listing)?;
    Ok(run(rt, alloc, &program, config, NotTaken, gate))
}

/// 600 turns of a loop that stores, loads what was stored and branches on it.
const LOOP: &[u8] = b".space 4\nori $1,$0,600\nL: sw $1,0($0)\nlw $2,0($0)\naddiu $1,$2,-1\n\
    jal F\naddiu $3,$3,1\nbne $1,$0,L\nbreak\nF: multu $1,$2\njr $ra\n";
