//! The policy of two, which executes the oldest two tenants that are ready, and retires up to two.
use dual_issue::{DualIssue, run};
use inorder::{Ended, Machine};
use instructions::{Bimod, Config, Ending, NotTaken, Program};
use isa::parse;
use one_thread::{Bench, Turn};
use std::alloc::{AllocError, Global};
use std::process::Abort;
use std::test::Fail;

/// A chain of three, and two instructions that wait for nothing.
const CHAIN: &[u8] =
    b"addiu $1,$0,1\naddu $2,$1,$1\naddu $3,$2,$2\naddiu $4,$0,4\naddiu $5,$0,5\nbreak\n";

/// A load after a store, and a branch that is mispredicted.
const MISPREDICTED: &[u8] =
    b".space 8\naddiu $1,$0,4\nsw $1,0($1)\nlw $2,4($0)\nbeq $2,$1,E\naddiu $3,$0,3\nE: break\n";

/// Pictures of runs, a row for each tenant in program order and a column for each round: let, executed, value of a load,
/// mended, squashed, retired. Of two marks in a round the later stands.
const PICTURES: &[(&[u8], &[&[u8]])] = &[
    (
        CHAIN,
        &[b"LXR", b"L.XR", b" L.XR", b" LX.R", b"  LX.R", b"  L.XR"],
    ),
    (
        MISPREDICTED,
        &[
            b"LXR", b"L.XR", b" LXVR", b" L..MR", b"  LXS", b"  L.S", b"    LXR",
        ],
    ),
];

fn config() -> Result<Config, Fail> {
    Ok(Config::new(16, 8, 1, 1, 1, 1_000_000, 1_000_000)?)
}

/// The rows of a picture, and the positions of the live tenants, the oldest first.
#[derive(Drop)]
struct Picture {
    rows: Vec<Vec<u8>>,
    live: Vec<usize>,
}

impl Picture {
    // Puts a mark into a round's column of the row of a live tenant.
    fn mark(&mut self, age: usize, round: usize, mark: u8) -> Result<(), AllocError> {
        let row = &mut self.rows[self.live[age]];
        let between = if row.contains(&b'L') { b'.' } else { b' ' };
        row.truncate(round);
        while row.len() < round {
            row.push(between)?;
        }
        row.push(mark)?;
        Ok(())
    }

    // Marks what a turn in a round has done.
    fn turn(&mut self, alloc: Global, turn: Turn, round: usize) -> Result<(), AllocError> {
        match turn {
            Turn::Let => {
                self.live.push(self.rows.len())?;
                self.rows.push(Vec::new(alloc))?;
                self.mark(self.live.len() - 1, round, b'L')
            }
            Turn::Ran(age) => self.mark(age, round, b'X'),
            Turn::Loaded(age) => self.mark(age, round, b'V'),
            Turn::Recovered(age) => {
                self.mark(age, round, b'M')?;
                for squashed in age + 1..self.live.len() {
                    self.mark(squashed, round, b'S')?;
                }
                self.live.truncate(age + 1);
                Ok(())
            }
            Turn::Halved | Turn::Retired | Turn::Over(_) => {
                self.mark(0, round, b'R')?;
                self.live.remove(0);
                Ok(())
            }
        }
    }
}

fn is_drawn(
    rt: &impl Abort,
    alloc: Global,
    listing: &[u8],
    expected: &[&[u8]],
) -> Result<(), Fail> {
    let program = parse(alloc, listing)?;
    let mut bench = Bench::new(alloc, &program, &config()?, NotTaken)?;
    let mut policy = DualIssue::new();
    let mut picture = Picture {
        rows: Vec::new(alloc),
        live: Vec::new(alloc),
    };
    let mut over = false;
    while !over {
        assert!(rt; bench.has_room());
        let turn = bench.turn_by(&mut policy);
        picture.turn(alloc, turn, policy.rounds() as usize)?;
        over = matches!(turn, Turn::Over(_));
    }
    assert_eq!(rt; picture.rows.len(), expected.len());
    for (row, expected) in picture.rows.iter().zip(expected.iter()) {
        assert_eq!(rt; row.as_slice(), *expected, "{listing:?}");
    }
    Ok(())
}

#[test]
fn the_oldest_two_that_are_ready_execute(rt: HostRuntime) -> Result<(), Fail> {
    for (listing, expected) in PICTURES {
        is_drawn(&rt, rt.alloc(), listing, expected)?;
    }
    Ok(())
}

#[test]
fn a_run_by_the_policy_ends_in_order(rt: HostRuntime) -> Result<(), Fail> {
    for listing in [CHAIN, MISPREDICTED] {
        let program = parse(rt.alloc(), listing)?;
        let mut machine = Machine::new(rt.alloc(), &program)?;
        let ended = machine.run(1000);
        let end = run(rt.alloc(), &program, &config()?, Bimod::new())?;
        assert!(rt;
            matches!((ended, end.outcome), (Ended::Stopped(one), Ending::Stop(other)) if one == other)
        );
        assert_eq!(rt; (end.n, end.pc), (machine.count(), machine.pc()));
        assert_eq!(rt; end.registers, *machine.registers());
        assert_eq!(rt; end.memory.as_slice(), machine.memory());
    }
    Ok(())
}
