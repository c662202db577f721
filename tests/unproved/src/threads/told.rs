//! The tallies that a gate is told are those of the run.
use super::{LAST_BUT_ONE, LOOP, config, run_listing};
use pool::{Gate, Run, Tally};
use snapshots::Snap;
use std::process::Abort;
use std::sync::atomic::AtomicU64;
use std::sync::atomic::Ordering::SeqCst;
use std::test::*;

const NAMES: [&str; 10] = [
    "lets", "claims", "finishes", "stale", "loads", "retires", "squashes", "mends", "hints",
    "renewals",
];

fn numbers(tally: &Tally) -> [u64; 10] {
    let Tally {
        lets,
        claims,
        finishes,
        stale,
        loads,
        retires,
        squashes,
        mends,
        hints,
        renewals,
    } = *tally;
    [
        lets, claims, finishes, stale, loads, retires, squashes, mends, hints, renewals,
    ]
}

/// How much may be counted and not told yet: nothing by the commit thread, and up to 65 counts by each of the others, where
/// one count of squashes is of as many as the ring holds.
const UNTOLD: [u64; 10] = [250, 250, 250, 250, 0, 0, 600, 250, 250, 0];

/// The tally that was told last, and how many.
#[derive(Drop)]
struct Last {
    numbers: [AtomicU64; 10],
    told: AtomicU64,
}

impl Gate for Last {
    fn held(&self, _unit: u32, _station: u32) -> bool {
        false
    }

    fn seen(&self, _place: u32, _snap: &Snap) {}

    fn counted(&self, tally: &Tally) {
        let told = self.told.fetch_add(1, SeqCst);
        let of_before = tally.retires != 64 * (told + 1) && tally.retires % 64 == 0;
        if of_before {
            self.told.fetch_add(1_000_000, SeqCst);
        }
        for (number, to) in numbers(tally).iter().zip(self.numbers.iter()) {
            to.store(*number, SeqCst);
        }
    }
}

fn zero() -> AtomicU64 {
    AtomicU64::new(0)
}

// The loop has 8 instructions a turn and one before it, so that 4,801 retire, and 76 tallies are told. How many results are
// stale is a matter of the machine that the threads run on, and may be none.
#[test]
fn all_ten_totals_are_told_with_the_retirements_that_are_shown(
    rt: HostRuntime,
) -> Result<(), Fail> {
    let gate = Last {
        numbers: [
            zero(),
            zero(),
            zero(),
            zero(),
            zero(),
            zero(),
            zero(),
            zero(),
            zero(),
            zero(),
        ],
        told: zero(),
    };
    let run = run_listing(
        &rt,
        rt.alloc(),
        LOOP,
        &config(8, 1, LAST_BUT_ONE - 30)?,
        &gate,
    )?;
    let Run::Ended(end, tally) = run else {
        return Err(Fail::from("no end"));
    };
    assert_eq!(rt; (end.n, gate.told.load(SeqCst)), (4_801, 76));
    for (at, number) in numbers(&tally).iter().enumerate() {
        let told = gate.numbers[at].load(SeqCst);
        let name = NAMES[at];
        assert!(rt;
            told <= *number && *number <= told + UNTOLD[at],
            "{name}: {told} of {number}"
        );
        assert!(rt; 0 < told || name == "stale", "{name}: {told} of {number}");
    }
    assert!(rt; 600 <= tally.loads && 10 <= tally.renewals, "{tally:?}");
    Ok(())
}
