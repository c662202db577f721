//! What a run asks its predictor and tells it: as its turns one by one do.
ghost use Rattle.std.specs.Prelude.{⊤};

use bench::run;
use instructions::{Bimod, Config, Instr, Predictor, Program};
use isa::parse;
use one_thread::{Bench, Turn};
use std::alloc::Global;
use std::cell::Cell;
use std::process::Abort;
use std::test::Fail;

/// Answers as another predictor, and keeps a number of all calls in their order.
#[derive(Drop)]
struct Keeping<'s> {
    inner: Bimod,
    seen: &'s Cell<u64>,
}

impl<'s> Keeping<'s> {
    fn new(seen: &'s Cell<u64>) -> Keeping<'s> {
        Keeping {
            inner: Bimod::new(),
            seen,
        }
    }

    fn keeps(&self, call: u64, pc: u32, next: u32) {
        let before = self.seen.get().rotate_left(23);
        let sum = before.wrapping_add(u64::from(pc)) ^ (u64::from(next) << 32);
        self.seen
            .set(sum.wrapping_add(call).wrapping_mul(0x9e37_79b9_7f4a_7c15));
    }
}

impl<'s> Predictor for Keeping<'s> {
    ghost Predicts = { λ old pc instr answer new. ⊤ };

    ghost Learns = { λ old pc next new. ⊤ };

    fn predict(&mut self, pc: u32, instr: &Instr) -> u32 {
        let next = self.inner.predict(pc, instr);
        self.keeps(1, pc, next);
        next
    }

    fn told(&mut self, pc: u32, next: u32) {
        self.keeps(2, pc, next);
        self.inner.told(pc, next);
    }
}

// The number of all calls of a run up to the configuration's limit.
fn seen_by_run(alloc: Global, program: &Program, config: &Config) -> Result<u64, Fail> {
    let calls = Cell::new(0);
    run(alloc, program, config, Keeping::new(&calls))?;
    Ok(calls.get())
}

// The number of all calls of turns one by one, up to the same limit.
fn seen_by_turns(alloc: Global, program: &Program, config: &Config) -> Result<u64, Fail> {
    let calls = Cell::new(0);
    let limit = u64::from(config.limit());
    let mut bench = Bench::new(alloc, program, config, Keeping::new(&calls))?;
    for _ in 0..20_000 {
        if bench.count() < limit && bench.has_room() && matches!(bench.turn(), Turn::Over(_)) {
            break;
        }
    }
    Ok(calls.get())
}

/// Numbers of stations and of queue entries.
const SIZES: &[(u64, u64)] = &[(2, 2), (4, 2), (8, 3), (16, 2), (16, 8), (32, 8), (32, 32)];

/// Limits at which a run is cut off in different states.
const LIMITS: &[u64] = &[1, 7, 60, 300];

// At each size, and up to each limit.
fn is_asked_alike(rt: &impl Abort, alloc: Global, listing: &[u8]) -> Result<(), Fail> {
    let program = parse(alloc, listing)?;
    for &(ring, queue) in SIZES {
        for &limit in LIMITS {
            let config = Config::new(ring, queue, 1, 1, 1, limit, 1_000_000)?;
            assert_eq!(rt;
                seen_by_run(alloc, &program, &config)?,
                seen_by_turns(alloc, &program, &config)?,
                "{:?}",
                (ring, queue, limit)
            );
        }
    }
    Ok(())
}

// Several tenants are let between two retirements, since the queue was full: a branch that depends on a load of these,
// and a younger one that does not. Both are mispredicted, and the younger one is known first.
#[test]
fn a_miss_is_mended_among_several_lets(rt: HostRuntime) -> Result<(), Fail> {
    let listing =
        b".space 64\nori $1,$0,40\nL: andi $2,$1,3\nsw $2,0($0)\nsw $2,4($0)\nlw $3,8($0)\nlw $4,0($0)\nbeq $4,$0,M\nandi $5,$1,1\nbne $5,$0,N\nxor $6,$6,$1\nM: addu $7,$7,$6\nN: addiu $1,$1,-1\nbne $1,$0,L\nbreak\n";
    is_asked_alike(&rt, rt.alloc(), listing)
}

#[test]
fn misses_calls_and_products_are_asked_alike(rt: HostRuntime) -> Result<(), Fail> {
    let listing =
        b".space 16\nori $1,$0,30\nL: mult $1,$1\nmflo $2\nandi $3,$2,4\nbeq $3,$0,E\njal F\nE: addu $4,$2,$4\nandi $3,$4,3\nbne $3,$0,G\nsw $4,0($0)\nG: addiu $1,$1,-1\nbne $1,$0,L\nbreak\nF: divu $4,$1\nmfhi $4\nlw $5,0($0)\njr $ra\n";
    is_asked_alike(&rt, rt.alloc(), listing)
}

// The queue is full, so that branches leave and nobody is let at their stations. Then a store leaves, and several are let in a
// row, of which one is mispredicted: those on the wrong path are let where branches have left.
#[test]
fn a_wrong_path_tells_who_has_left(rt: HostRuntime) -> Result<(), Fail> {
    let listing =
        b".space 64\nori $1,$0,40\nL: sw $1,0($0)\nandi $2,$1,1\nbne $2,$0,N\nbne $0,$0,N\nbne $0,$0,N\nsw $1,4($0)\naddu $3,$3,$1\nN: bne $0,$0,L\naddiu $1,$1,-1\nbne $1,$0,L\nbreak\n";
    is_asked_alike(&rt, rt.alloc(), listing)
}
