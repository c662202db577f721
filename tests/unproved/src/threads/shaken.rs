//! `--shake SEED` holds each unit back as long as the words of its own stream say.
use command_line::asked;
use on_threads::watch;
use pool::Gate;
use std::process::Abort;
use std::test::*;

/// The generator PCG32 (O'Neill 2014), in one of its streams.
#[derive(Drop)]
struct Words {
    state: u64,
    step: u64,
}

impl Words {
    fn new(seed: u64, stream: u64) -> Words {
        let step = 2 * stream + 1;
        let mut words = Words {
            state: seed.wrapping_add(step),
            step,
        };
        words.next();
        words
    }

    fn next(&mut self) -> u32 {
        let old = self.state;
        self.state = old
            .wrapping_mul(6_364_136_223_846_793_005)
            .wrapping_add(self.step);
        let mixed = ((((old >> 18) ^ old) >> 27) & 0xffff_ffff) as u32;
        mixed.rotate_right((old >> 59) as u32)
    }
}

// For each word a unit is held for a number of questions, and then let go.
#[test]
fn each_unit_is_held_by_its_own_words(rt: HostRuntime) -> Result<(), Fail> {
    for (seed, name) in [(7, "7"), (12_345_678_901, "12345678901")] {
        let words = ["ruu", "run", "sum.s", "--units", "3", "--shake", name];
        let Ok(asked) = asked(rt.alloc(), words.as_slice()) else {
            return Err(Fail::from("there is no run"));
        };
        let gate = watch(&rt, &asked)?;
        for unit in [1, 3, 2] {
            let mut stream = Words::new(seed, u64::from(unit));
            for at in 0..50 {
                let word = stream.next();
                for question in 0..word / 256 % (word % 64 + 1) {
                    assert!(rt;
                        gate.held(unit, 0),
                        "unit {unit}, word {at}, question {question}"
                    );
                }
                assert!(rt; !gate.held(unit, 0), "unit {unit}, word {at}");
            }
        }
    }
    Ok(())
}

#[test]
fn nobody_is_held_where_nobody_shakes(rt: HostRuntime) -> Result<(), Fail> {
    let words = ["ruu", "run", "sum.s"];
    let Ok(asked) = asked(rt.alloc(), words.as_slice()) else {
        return Err(Fail::from("there is no run"));
    };
    let gate = watch(&rt, &asked)?;
    for unit in 1..3 {
        assert!(rt; !gate.held(unit, 0), "{unit}");
    }
    Ok(())
}
