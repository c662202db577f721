//! Turns of the one-thread unit.
use instructions::{Config, Ending, NotTaken, Predictor, Program, Stop};
use isa::parse;
use one_thread::{Bench, Turn};
use std::alloc::Global;
use std::process::Abort;
use std::test::Fail;

fn config(ring: u64, queue: u64) -> Result<Config, Fail> {
    Ok(Config::new(ring, queue, 1, 1, 1, 1_000_000, 1_000_000)?)
}

fn takes_turns(
    rt: &impl Abort,
    alloc: Global,
    listing: &[u8],
    config: &Config,
    turns: &[Turn],
) -> Result<(), Fail> {
    let program = parse(alloc, listing)?;
    let mut bench = Bench::new(alloc, &program, config, NotTaken)?;
    for turn in turns {
        assert!(rt; bench.has_room());
        assert_eq!(rt; bench.turn(), *turn, "{listing:?}");
    }
    Ok(())
}

/// Listings, the numbers of stations and of queue entries, and the turns that are taken.
const TURNS: &[(&[u8], u64, u64, &[Turn])] = &[
    // a chain of additions
    (
        b"addiu $1,$0,5\naddu $2,$1,$1\nbreak\n",
        16,
        8,
        &[
            Turn::Let,
            Turn::Let,
            Turn::Let,
            Turn::Ran(0),
            Turn::Ran(1),
            Turn::Ran(2),
            Turn::Retired,
            Turn::Retired,
            Turn::Over(Stop::Break),
            Turn::Over(Stop::Break),
        ],
    ),
    // no instruction
    (b"", 16, 8, &[Turn::Over(Stop::BadPc)]),
    // a fault on the wrong path
    (
        b"beq $0,$0,E\nlw $1,1($0)\nE: break\n",
        4,
        2,
        &[
            Turn::Let,
            Turn::Let,
            Turn::Let,
            Turn::Ran(0),
            Turn::Recovered(0),
            Turn::Let,
            Turn::Ran(1),
            Turn::Retired,
            Turn::Over(Stop::Break),
        ],
    ),
    // a load that takes its bytes from a store
    (
        b".space 4\nsw $0,0($0)\nlw $2,0($0)\nbreak\n",
        4,
        2,
        &[
            Turn::Let,
            Turn::Let,
            Turn::Let,
            Turn::Ran(0),
            Turn::Ran(1),
            Turn::Ran(2),
            Turn::Loaded(1),
            Turn::Retired,
            Turn::Retired,
            Turn::Over(Stop::Break),
        ],
    ),
    // a product
    (
        b"mult $0,$0\nbreak\n",
        2,
        2,
        &[
            Turn::Let,
            Turn::Let,
            Turn::Ran(0),
            Turn::Ran(1),
            Turn::Halved,
            Turn::Let,
            Turn::Ran(1),
            Turn::Retired,
            Turn::Over(Stop::Break),
        ],
    ),
    // a product on the wrong path
    (
        b"beq $0,$0,E\nmult $0,$0\nE: break\n",
        4,
        2,
        &[
            Turn::Let,
            Turn::Let,
            Turn::Let,
            Turn::Let,
            Turn::Ran(0),
            Turn::Recovered(0),
            Turn::Let,
            Turn::Ran(1),
            Turn::Retired,
            Turn::Over(Stop::Break),
        ],
    ),
];

#[test]
fn a_unit_takes_these_turns(rt: HostRuntime) -> Result<(), Fail> {
    for &(listing, ring, queue, turns) in TURNS {
        takes_turns(&rt, rt.alloc(), listing, &config(ring, queue)?, turns)?;
    }
    Ok(())
}

// Turns on past the end.
fn turns_on<P: Predictor + Drop>(rt: &impl Abort, bench: &mut Bench<P>, end: Turn) {
    let mut over = false;
    for _ in 0..60 {
        assert!(rt; bench.has_room());
        let turn = bench.turn();
        assert!(rt; !over || turn == end, "{turn:?}");
        over = turn == end;
    }
    assert!(rt; over);
}

#[test]
fn an_ended_unit_stays_ended(rt: HostRuntime) -> Result<(), Fail> {
    // behind the stop a store, a load that it blocks, what waits for that, and room for a let
    let listing =
        b".space 4\nori $1,$0,3\nbreak\nL: sb $1,0($0)\nlw $2,0($0)\naddu $3,$2,$1\nbeq $2,$0,L\n";
    let program = parse(rt.alloc(), listing)?;
    for ring in [2, 4, 8, 16, 32] {
        let mut bench = Bench::new(rt.alloc(), &program, &config(ring, 2)?, NotTaken)?;
        turns_on(&rt, &mut bench, Turn::Over(Stop::Break));
        let end = bench.run(1000);
        assert_eq!(rt; end.outcome, Ending::Stop(Stop::Break), "{ring:?}");
        assert_eq!(rt; (end.n, end.pc), (1, 0x0040_0004), "{ring:?}");
        let registers = (end.registers[1], end.registers[2], end.registers[3]);
        assert_eq!(rt; registers, (3, 0, 0), "{ring:?}");
        assert_eq!(rt; end.memory.as_slice(), [0, 0, 0, 0].as_slice(), "{ring:?}");
    }
    Ok(())
}

// A product of 3 and 3, of which the first half has retired alone.
fn halved<'a>(
    rt: &impl Abort,
    alloc: Global,
    program: &'a Program,
    ring: u64,
) -> Result<Bench<'a, NotTaken>, Fail> {
    let mut bench = Bench::new(alloc, program, &config(ring, 2)?, NotTaken)?;
    let mut halved = false;
    for _ in 0..20 {
        if !halved {
            assert!(rt; bench.has_room());
            halved = bench.turn() == Turn::Halved;
        }
    }
    assert!(rt; halved);
    Ok(bench)
}

#[test]
fn between_two_halves_all_is_as_before_the_first(rt: HostRuntime) -> Result<(), Fail> {
    let program = parse(rt.alloc(), b"addiu $1,$0,3\nmult $1,$1\nmflo $2\nbreak\n")?;
    for ring in [2, 4, 8, 16, 32] {
        let end = halved(&rt, rt.alloc(), &program, ring)?.run(1);
        assert_eq!(rt; end.outcome, Ending::Limit, "{ring:?}");
        assert_eq!(rt; (end.n, end.pc), (1, 0x0040_0004), "{ring:?}");
        assert_eq!(rt; (end.registers[1], end.registers[32]), (3, 0), "{ring:?}");
        let end = halved(&rt, rt.alloc(), &program, ring)?.run(1000);
        assert_eq!(rt; end.outcome, Ending::Stop(Stop::Break), "{ring:?}");
        assert_eq!(rt; (end.n, end.pc), (3, 0x0040_000c), "{ring:?}");
        assert_eq!(rt; (end.registers[2], end.registers[32]), (9, 9), "{ring:?}");
    }
    Ok(())
}
