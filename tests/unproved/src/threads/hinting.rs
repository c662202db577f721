//! The commit thread and a unit hint those whom they have woken, and nobody else.
use back::Back;
use committing::{Committer, Run};
use counts::{Counts, WorkerSeat};
use front::Front;
use hints::Hints;
use instructions::{Config, NotTaken};
use isa::parse;
use station::{Claim, Core, UnitSeat};
use std::marker::Brand;
use std::process::Abort;
use std::sync::Wait;
use std::test::*;
use std::thread;
use std::thread::Threads;
use workers::{Open, RunState, TermShared, start_units};

/// Of the commit thread, and of a unit.
const TURNS: u32 = 40;

// The second and the third wait for what the first loads, and nobody claims them: the turns run out.
#[test]
fn commits_and_loads_hint_whom_a_load_has_woken(rt: HostRuntime) -> Result<(), Fail> {
    let listing = b".word 7\nlw $1,0($0)\naddu $2,$1,$1\naddu $3,$1,$0\nbreak\n";
    let program = parse(rt.alloc(), listing)?;
    let config = Config::new(4, 2, 1, 1, 1, 1_000, TURNS as u64)?;
    let (core, seat, back_seat, mut unit) = Core::make(rt.alloc(), &program, &config)?;
    let mut front = Front::new(&core, seat, &program, NotTaken);
    for _ in 0..4 {
        front.turn(&core);
    }
    match core.claim(&mut unit, 0) {
        Claim::Job(job) => {
            let outcome = job.outcome(&program);
            core.finish(&mut unit, job, outcome);
        },
        Claim::NotOpen | Claim::Waiting { tag: _, k: _ } | Claim::Moved { tag: _ } => {
            return Err(Fail::from("no job"));
        },
    }
    let (counts, count) = Counts::make(rt.alloc())?;
    let hints = Hints::<Brand>::new(rt.alloc(), 4)?;
    let state = RunState::new(rt.alloc(), counts, hints, 1, TURNS)?;
    let Ok((back, _snapper)) = Back::<Brand>::new(rt.alloc(), &core, back_seat, &program, &config)
    else {
        return Err(Fail::from("no back"));
    };
    let mut committer = Committer::new(back, count, 1_000, TURNS);
    let shared = TermShared {
        wait: &rt,
        state: &state,
        core: &core,
        gate: &Open,
    };
    let goes_on = committer.work(&shared);
    let mut hinter = state.hints.hinter();
    let hinted = [
        state.hints.pop(&rt, &mut hinter),
        state.hints.pop(&rt, &mut hinter),
        state.hints.pop(&rt, &mut hinter),
    ];
    let Run::LimitReached(end, tally) = committer.end(&rt, &state) else {
        return Err(Fail::from("no turns ran out"));
    };
    assert_eq!(rt; (goes_on, end.n, tally.loads), (false, 1, 1));
    assert_eq!(rt; hinted, [Some(1), Some(2), None]);
    Ok(())
}

// Starts the only unit, and returns when it has taken its turns. False where it cannot be started.
fn work<'x, R: Threads + Wait + Sync>(
    shared: &'x TermShared<'x, Brand, Open, R>,
    unit: UnitSeat,
    count: WorkerSeat,
) -> bool {
    shared.state.begin_term(1);
    thread::scope(
        thread::scope_env(),
        shared.wait,
        move |scope| start_units(scope, shared, unit, count).is_some(),
    )
}

#[test]
fn a_unit_that_wakes_nobody_hints_nobody(rt: HostRuntime) -> Result<(), Fail> {
    let program = parse(rt.alloc(), b"nop\nbreak\n")?;
    let config = Config::new(4, 2, 1, 1, 1, 1_000, TURNS as u64)?;
    let (core, seat, _back, unit) = Core::make(rt.alloc(), &program, &config)?;
    let mut front = Front::new(&core, seat, &program, NotTaken);
    front.turn(&core);
    front.turn(&core);
    let (counts, count) = Counts::make(rt.alloc())?;
    let (mut count, others) = counts.split_worker(count);
    let hints = Hints::<Brand>::new(rt.alloc(), 4)?;
    let state = RunState::new(rt.alloc(), counts, hints, 1, TURNS)?;
    let shared = TermShared {
        wait: &rt,
        state: &state,
        core: &core,
        gate: &Open,
    };
    let has_worked = work(&shared, unit, others);
    let hinted = state.hints.pop(&rt, &mut state.hints.hinter());
    assert_eq!(rt; (has_worked, hinted), (true, None));
    assert_eq!(rt; state.counts.read(&mut count).finishes, 2);
    Ok(())
}
