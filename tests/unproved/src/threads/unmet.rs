//! Calls by hand on the seats of one core, none of which has met another: each finds what is there.
use back::{Back, Commit, Refresh};
use front::{Front, Recovery, Turn};
use instructions::{Config, NotTaken, Program, Stop};
use isa::parse;
use station::{Claim, Core, Finish, UnitSeat};
use std::marker::Brand;
use std::process::Abort;
use std::test::*;

/// A load, and a branch that is mispredicted.
const LISTING: &[u8] = b".word 7\nlw $1,0($0)\nbeq $0,$0,E\nnop\nE: break\n";

// Claims at a station and finishes the job.
fn work(core: &Core, program: &Program, unit: &mut UnitSeat, station: usize) -> Option<Finish> {
    match core.claim(unit, station) {
        Claim::Job(job) => {
            let outcome = job.outcome(program);
            Some(core.finish(unit, job, outcome))
        },
        Claim::NotOpen => None,
        Claim::Waiting { tag: _, k: _ } => None,
        Claim::Moved { tag: _ } => None,
    }
}

#[test]
fn each_call_finds_what_is_there(rt: HostRuntime) -> Result<(), Fail> {
    let program = parse(rt.alloc(), LISTING)?;
    let config = Config::new(4, 2, 1, 1, 1, 1_000, 1_000)?;
    let (core, seat, back_seat, mut unit) = Core::make(rt.alloc(), &program, &config)?;
    let mut front = Front::new(&core, seat, &program, NotTaken);
    let Ok((mut back, _snapper)) = Back::<Brand>::new(
        rt.alloc(),
        &core,
        back_seat,
        &program,
        &config,
    ) else {
        return Err(Fail::from("no back"));
    };
    for station in 0..4 {
        let turn = front.turn(&core);
        assert!(rt;
            matches!(turn, Turn::Let { station: at, .. } if at == station),
            "{turn:?}"
        );
    }
    let load = work(&core, &program, &mut unit, 0);
    let refresh = back.refresh(&core);
    let first = back.commit(&core);
    let branch = work(&core, &program, &mut unit, 1);
    let recovery = front.recover(&core);
    let second = back.commit(&core);
    let turn = front.turn(&core);
    let stop = work(&core, &program, &mut unit, 2);
    let last = back.commit(&core);
    let end = back.end(&rt);
    assert_eq!(rt;
        (load, branch, stop),
        (
            Some(Finish::Finished),
            Some(Finish::Finished),
            Some(Finish::Finished)
        )
    );
    assert!(rt;
        matches!(
            refresh,
            Refresh::Loaded {
                station: 0,
                value: 7,
                ..
            }
        ),
        "{refresh:?}"
    );
    assert!(rt; matches!(first, Commit::Retired { n: 1, .. }), "{first:?}");
    assert!(rt;
        matches!(
            recovery,
            Recovery::Mended {
                station: 1,
                squashed: 2
            }
        ),
        "{recovery:?}"
    );
    assert!(rt;
        matches!(second, Commit::Retired { n: 2, .. }),
        "{second:?}"
    );
    assert!(rt;
        matches!(
            turn,
            Turn::Let {
                station: 2,
                pc: 0x0040_000c,
                ..
            }
        ),
        "{turn:?}"
    );
    assert!(rt; matches!(last, Commit::Ended(Stop::Break)), "{last:?}");
    assert_eq!(rt; (end.n, end.registers[1]), (2, 7));
    Ok(())
}

// A let reads the entry of each register that it reads, register 0 apart, so that one that reads two touches two more.
#[test]
fn a_let_touches_what_it_reads(rt: HostRuntime) -> Result<(), Fail> {
    let program = parse(rt.alloc(), b"addiu $3,$0,1\naddu $4,$1,$2\nbreak\n")?;
    let config = Config::new(4, 2, 1, 1, 1, 1_000, 1_000)?;
    let (core, seat, _back, _unit) = Core::make(rt.alloc(), &program, &config)?;
    let mut front = Front::new(&core, seat, &program, NotTaken);
    front.turn(&core);
    let first = front.touched();
    front.turn(&core);
    let second = front.touched() - first;
    assert_eq!(rt; second, first + 2);
    Ok(())
}
