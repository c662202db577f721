//! Turns of the one-thread unit in any order.
ghost use Rattle.std.specs.Prelude.{⊤};

use inorder::{Ended, Machine};
use instructions::{Bimod, Config, Ending, NotTaken, Predictor, Program};
use isa::parse;
use one_thread::{Bench, Chooser, Order, Seeded, Stage, Step, Turn};
use std::alloc::Global;
use std::process::Abort;
use std::test::Fail;

/// A loop with products, loads behind stores, a call, and branches that depend on loads.
const LOOP: &[u8] =
    b".space 64\nori $1,$0,12\nL: mult $1,$1\nmflo $2\nandi $3,$2,12\nsw $2,0($3)\nlbu $4,1($3)\nlw $5,8($0)\nbeq $4,$0,M\naddu $6,$6,$5\nM: andi $7,$1,3\nbne $7,$0,N\njal F\nN: addiu $1,$1,-1\nbne $1,$0,L\nbreak\nF: divu $2,$1\nmfhi $8\nsb $8,4($0)\njr $ra\n";

/// Six additions that wait for nothing.
const APART: &[u8] =
    b"addiu $1,$0,1\naddiu $2,$0,2\naddiu $3,$0,3\naddiu $4,$0,4\naddiu $5,$0,5\naddiu $6,$0,6\nbreak\n";

/// A fault behind a branch that is taken, on the path that nobody takes.
const FAULT: &[u8] = b"addiu $1,$0,1\nbgtz $1,E\nlw $2,1($0)\nE: addi $3,$1,2\nbreak\n";

fn config(ring: u64, queue: u64) -> Result<Config, Fail> {
    Ok(Config::new(ring, queue, 1, 1, 1, 1_000_000, 1_000_000)?)
}

/// Names the first step each time, and keeps how many it was shown.
#[derive(Drop)]
struct First {
    shown: usize,
}

impl Chooser for First {
    ghost Chooses = { λ old steps answer new. ⊤ };

    fn choose(&mut self, steps: &[Step]) -> u32 {
        self.shown = steps.len();
        0
    }
}

fn ending(ended: Ended) -> Ending {
    match ended {
        Ended::Stopped(code) => Ending::Stop(code),
        Ended::Limit => Ending::Limit,
    }
}

// A run by the choices of a seed, beside the in-order machine.
fn ends_in_order<P: Predictor + Drop>(
    rt: &impl Abort,
    alloc: Global,
    program: &Program,
    bench: Bench<P>,
    seed: u64,
    limit: u64,
) -> Result<(), Fail> {
    let mut machine = Machine::new(alloc, program)?;
    let ended = machine.run(limit);
    let end = bench.run_by(limit, &mut Seeded::new(seed));
    assert_eq!(rt; end.outcome, ending(ended), "{seed:?}");
    assert_eq!(rt;
        (end.n, end.pc),
        (machine.count(), machine.pc()),
        "{seed:?}"
    );
    assert_eq!(rt; end.registers, *machine.registers(), "{seed:?}");
    assert_eq!(rt; end.memory.as_slice(), machine.memory(), "{seed:?}");
    Ok(())
}

#[test]
fn a_run_by_any_choice_ends_in_order(rt: HostRuntime) -> Result<(), Fail> {
    for listing in [LOOP, APART, FAULT] {
        let program = parse(rt.alloc(), listing)?;
        for (ring, queue) in [(2, 2), (4, 2), (16, 8), (32, 3)] {
            for seed in 0..12 {
                for limit in [3, 1000] {
                    let bench = Bench::new(
                        rt.alloc(),
                        &program,
                        &config(ring, queue)?,
                        Bimod::new(),
                    )?;
                    ends_in_order(&rt, rt.alloc(), &program, bench, seed, limit)?;
                }
            }
        }
    }
    Ok(())
}

// An older tenant waits to be claimed while a younger one is done.
fn is_out_of_order<P: Predictor + Drop>(bench: &Bench<P>) -> bool {
    let mut waits = false;
    for age in 0..bench.live() {
        match bench.tenant(age).map(|station| station.stage) {
            Some(Stage::Open) => waits = true,
            Some(Stage::Done) if waits => return true,
            _ => {}
        }
    }
    false
}

// A younger tenant is done before an older one after a turn of a seed.
fn runs_out_of_order(alloc: Global, program: &Program, seed: u64) -> Result<bool, Fail> {
    let mut bench = Bench::new(alloc, program, &config(16, 8)?, NotTaken)?;
    let mut chooser = Seeded::new(seed);
    for _ in 0..40 {
        if bench.has_room()
            && !matches!(bench.turn_by(&mut chooser), Turn::Over(_))
            && is_out_of_order(&bench)
        {
            return Ok(true);
        }
    }
    Ok(false)
}

#[test]
fn a_younger_tenant_runs_before_an_older_one(rt: HostRuntime) -> Result<(), Fail> {
    let program = parse(rt.alloc(), APART)?;
    let mut seen = false;
    for seed in 0..8 {
        seen |= runs_out_of_order(rt.alloc(), &program, seed)?;
    }
    assert!(rt; seen);
    Ok(())
}

// The turns of one bench by its order, of another by the first choice, and of a third by the order without a seed.
fn takes_first(
    rt: &impl Abort,
    ordered: &mut Bench<Bimod>,
    chosen: &mut Bench<Bimod>,
    by_order: &mut Bench<Bimod>,
) {
    let mut first = First { shown: 0 };
    let mut order = Order::by_seed(None);
    for turn in 0..400 {
        assert!(rt; ordered.has_room() && chosen.has_room() && by_order.has_room());
        let made = ordered.turn();
        assert_eq!(rt; chosen.turn_by(&mut first), made, "{turn:?}");
        assert_eq!(rt; by_order.turn_by(&mut order), made, "{turn:?}");
    }
}

#[test]
fn the_first_choice_is_the_turn_in_order(rt: HostRuntime) -> Result<(), Fail> {
    for listing in [LOOP, APART, FAULT, b""] {
        let program = parse(rt.alloc(), listing)?;
        for (ring, queue) in [(2, 2), (16, 8), (32, 2)] {
            let config = config(ring, queue)?;
            let mut ordered = Bench::new(rt.alloc(), &program, &config, Bimod::new())?;
            let mut chosen = Bench::new(rt.alloc(), &program, &config, Bimod::new())?;
            let mut by_order = Bench::new(rt.alloc(), &program, &config, Bimod::new())?;
            takes_first(&rt, &mut ordered, &mut chosen, &mut by_order);
        }
    }
    Ok(())
}

// The turns of two seeds are the same.
fn turns_alike(alloc: Global, program: &Program, one: u64, other: u64) -> Result<bool, Fail> {
    let config = config(16, 8)?;
    let mut ours = Bench::new(alloc, program, &config, NotTaken)?;
    let mut theirs = Bench::new(alloc, program, &config, NotTaken)?;
    let mut first = Seeded::new(one);
    let mut second = Seeded::new(other);
    for _ in 0..60 {
        if ours.has_room()
            && theirs.has_room()
            && ours.turn_by(&mut first) != theirs.turn_by(&mut second)
        {
            return Ok(false);
        }
    }
    Ok(true)
}

#[test]
fn a_seed_gives_its_own_turns(rt: HostRuntime) -> Result<(), Fail> {
    let program = parse(rt.alloc(), LOOP)?;
    assert!(rt; turns_alike(rt.alloc(), &program, 7, 7)?);
    assert!(rt; !turns_alike(rt.alloc(), &program, 7, 8)?);
    Ok(())
}

// The answer of the turn that makes a step, but for a retirement.
fn told(step: Step) -> Option<Turn> {
    match step {
        Step::Recover(miss) => Some(Turn::Recovered(miss.at)),
        Step::Let(_) => Some(Turn::Let),
        Step::Run(ready) => Some(Turn::Ran(ready.at)),
        Step::Load(answered) => Some(Turn::Loaded(answered.at)),
        Step::Retire => None,
    }
}

// Steps that are made one by one are the turns of another bench, and tell which tenant they work on.
fn steps_are_turns(rt: &impl Abort, stepped: &mut Bench<Bimod>, turned: &mut Bench<Bimod>) {
    for turn in 0..400 {
        assert!(rt; stepped.has_room() && turned.has_room());
        let made = turned.turn();
        let Some(step) = stepped.next_step() else {
            assert!(rt;
                stepped.steps().is_empty() && matches!(made, Turn::Over(_)),
                "{turn:?}"
            );
            return;
        };
        assert!(rt; !stepped.steps().is_empty(), "{turn:?}");
        assert_eq!(rt; stepped.make(step), made, "{turn:?}");
        assert!(rt; told(step).is_none_or(|answer| answer == made), "{turn:?}");
    }
}

#[test]
fn a_turn_makes_the_next_step(rt: HostRuntime) -> Result<(), Fail> {
    for listing in [LOOP, APART, FAULT, b""] {
        let program = parse(rt.alloc(), listing)?;
        for (ring, queue) in [(2, 2), (16, 8), (32, 2)] {
            let config = config(ring, queue)?;
            let mut stepped = Bench::new(rt.alloc(), &program, &config, Bimod::new())?;
            let mut turned = Bench::new(rt.alloc(), &program, &config, Bimod::new())?;
            steps_are_turns(&rt, &mut stepped, &mut turned);
        }
    }
    Ok(())
}
