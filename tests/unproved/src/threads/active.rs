//! A second unit works where there is work for it, on a machine that runs it beside the threads that dispatch and commit.
use super::{config, run_listing};
use pool::{Gate, Run, Tally};
use snapshots::Snap;
use std::process::Abort;
use std::sync::atomic::AtomicU64;
use std::sync::atomic::Ordering::SeqCst;
use std::test::*;
use std::thread::{available_parallelism, yield_now};

/// Notes which units ask, and lets the first one wait for a moment at each job until another asks.
#[derive(Drop)]
struct Asking {
    units: AtomicU64,
}

impl Gate for Asking {
    fn held(&self, unit: u32, _station: u32) -> bool {
        let before = self.units.fetch_or(1u64 << (unit % 64), SeqCst);
        if before.count_ones() < 2 {
            for _ in 0..200 {
                yield_now();
            }
        }
        false
    }

    fn seen(&self, _place: u32, _snap: &Snap) {}

    fn counted(&self, _tally: &Tally) {}
}

// No unit is held, so that a second one is active for the work alone: no instruction waits for another.
#[test]
fn a_second_unit_is_active_for_the_work(rt: HostRuntime) -> Result<(), Fail> {
    let processors = match available_parallelism(&rt) {
        Ok(processors) => processors.get(),
        Err(_) => 64,
    };
    if processors < 4 {
        return Ok(());
    }
    let mut listing = Vec::new(rt.alloc());
    for _ in 0..2_000 {
        listing.extend_from_slice(b"nop\n")?;
    }
    listing.extend_from_slice(b"break\n")?;
    let gate = Asking {
        units: AtomicU64::new(0),
    };
    let run = run_listing(
        &rt,
        rt.alloc(),
        listing.as_slice(),
        &config(16, 1, 1)?,
        &gate,
    )?;
    let Run::Ended(end, _) = run else {
        return Err(Fail::from("no end"));
    };
    assert_eq!(rt; (end.n, gate.units.load(SeqCst)), (2_000, 0b110));
    Ok(())
}
