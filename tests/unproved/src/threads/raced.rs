//! Hints that several threads ask for at the same moment.
use hints::Hints;
use std::alloc::Global;
use std::marker::Brand;
use std::process::Abort;
use std::sync::Wait;
use std::test::*;
use std::thread;
use std::thread::{Scope, Threads};

// Puts a hint and takes one, again and again. How often there was none to take, though each thread has put what it takes.
fn misses<R: Wait>(wait: &R, hints: &Hints<Brand>) -> u32 {
    let mut hinter = hints.hinter();
    let mut missed = 0;
    for _ in 0..20_000 {
        let was_put = hints.push(wait, &mut hinter, 1);
        if was_put && hints.pop(wait, &mut hinter).is_none() {
            missed += 1;
        }
    }
    missed
}

fn misses_of_two<'s, E: 's, R: Threads + Wait + Sync + 's>(
    rt: &'s R,
    scope: &Scope<'s, E>,
    hints: &'s Hints<Brand>,
) -> Option<u32> {
    let Ok(other) = scope.spawn(move || misses(rt, hints)) else {
        return None;
    };
    let own = misses(rt, hints);
    Some(own + other.join(rt))
}

fn in_threads<'x, R: Threads + Wait + Sync>(rt: &'x R, hints: &'x Hints<Brand>) -> Option<u32> {
    thread::scope(
        thread::scope_env(),
        rt,
        move |scope| misses_of_two(rt, scope, hints),
    )
}

#[test]
fn who_asks_beside_another_takes_a_hint_that_is_there(rt: HostRuntime) -> Result<(), Fail> {
    let hints = Hints::<Brand>::new(rt.alloc(), 4)?;
    for _ in 0..20 {
        assert_eq!(rt; in_threads(&rt, &hints), Some(0));
    }
    Ok(())
}
