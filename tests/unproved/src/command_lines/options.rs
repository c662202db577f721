//! Command lines of runs: each option, its default, and its limits.
use command_line::*;
use std::alloc::{AllocError, Global};
use std::test::Fail;

/// The words of a run of a listing with these options.
fn words<'a>(alloc: Global, options: &[&'a str]) -> Result<Vec<&'a str>, AllocError> {
    let mut words = Vec::new(alloc);
    words.extend_from_slice(&["ruu", "run", "sum.s"])?;
    words.extend_from_slice(options)?;
    Ok(words)
}

/// Ring, queue, units, turns and limit.
fn sizes(alloc: Global, options: &[&str]) -> Option<[u32; 5]> {
    let words = words(alloc, options).ok()?;
    match asked(alloc, words.as_slice()) {
        Ok(asked) => {
            let config = asked.config;
            Some([
                config.ring(),
                config.queue(),
                config.units(),
                config.turns(),
                config.limit(),
            ])
        },
        Err(_no_run) => None,
    }
}

const MOST: u32 = 4_294_967_295;

/// Options, and the sizes that are asked for.
const SIZES: &[(&[&str], [u32; 5])] = &[
    (&[], [16, 8, 2, MOST, 1_000_000]),
    (&["--ruu-size", "2"], [2, 2, 2, MOST, 1_000_000]),
    (&["--ruu-size", "4"], [4, 4, 2, MOST, 1_000_000]),
    (&["--ruu-size", "8"], [8, 8, 2, MOST, 1_000_000]),
    (&["--ruu-size", "16"], [16, 8, 2, MOST, 1_000_000]),
    (&["--ruu-size", "32"], [32, 8, 2, MOST, 1_000_000]),
    (&["--lsq-size", "2"], [16, 2, 2, MOST, 1_000_000]),
    (&["--lsq-size", "3"], [16, 3, 2, MOST, 1_000_000]),
    (&["--lsq-size", "16"], [16, 16, 2, MOST, 1_000_000]),
    (&["--lsq-size", "17"], [16, 16, 2, MOST, 1_000_000]),
    (&["--lsq-size", "32"], [16, 16, 2, MOST, 1_000_000]),
    (&["--units", "1"], [16, 8, 1, MOST, 1_000_000]),
    (&["--units", "64"], [16, 8, 64, MOST, 1_000_000]),
    (&["--turns", "1"], [16, 8, 2, 1, 1_000_000]),
    (&["--turns", "4294967295"], [16, 8, 2, MOST, 1_000_000]),
    (&["--turns", "4294967294"], [16, 8, 2, MOST - 1, 1_000_000]),
    (&["--limit", "0"], [16, 8, 2, MOST, 0]),
    (&["--limit", "4294967295"], [16, 8, 2, MOST, MOST]),
    (&["--limit", "007"], [16, 8, 2, MOST, 7]),
    (
        &["--ruu-size", "2", "--lsq-size", "3"],
        [2, 2, 2, MOST, 1_000_000],
    ),
    (
        &["--lsq-size", "3", "--ruu-size", "4"],
        [4, 3, 2, MOST, 1_000_000],
    ),
    (
        &["--lsq-size", "5", "--ruu-size", "4"],
        [4, 4, 2, MOST, 1_000_000],
    ),
    (
        &["--lsq-size", "32", "--ruu-size", "8"],
        [8, 8, 2, MOST, 1_000_000],
    ),
    (
        &["--lsq-size", "15", "--ruu-size", "16"],
        [16, 15, 2, MOST, 1_000_000],
    ),
    (
        &["--lsq-size", "31", "--ruu-size", "32"],
        [32, 31, 2, MOST, 1_000_000],
    ),
    (
        &["--lsq-size", "32", "--ruu-size", "32"],
        [32, 32, 2, MOST, 1_000_000],
    ),
    (
        &[
            "--ruu-size=4",
            "--lsq-size=32",
            "--units=5",
            "--turns=6",
            "--limit=7",
        ],
        [4, 4, 5, 6, 7],
    ),
    (&["--alone"], [16, 8, 2, MOST, 1_000_000]),
    (&["--bpred", "taken"], [16, 8, 2, MOST, 1_000_000]),
];

#[test]
fn each_option_is_taken_up_to_its_limits(rt: HostRuntime) {
    for &(options, wanted) in SIZES {
        let sizes = sizes(rt.alloc(), options);
        assert_eq!(rt; sizes, Some(wanted), "{options:?}");
    }
}

/// Words, and the predictor and flags that they ask for: alone, progress.
const FLAGS: &[(&[&str], BranchPredictor, bool, bool)] = &[
    (&[], BranchPredictor::Bimod, false, false),
    (
        &["--bpred", "bimod", "--progress"],
        BranchPredictor::Bimod,
        false,
        true,
    ),
    (
        &["--bpred", "nottaken", "--alone"],
        BranchPredictor::NotTaken,
        true,
        false,
    ),
    (
        &["--progress", "--alone", "--bpred=taken"],
        BranchPredictor::Taken,
        true,
        true,
    ),
    (&["--alone"], BranchPredictor::Bimod, true, false),
];

#[test]
fn a_predictor_and_flags_are_taken(rt: HostRuntime) -> Result<(), Fail> {
    for &(options, predictor, alone, progress) in FLAGS {
        let words = words(rt.alloc(), options)?;
        match asked(rt.alloc(), words.as_slice()) {
            Ok(asked) => {
                let flags = (asked.predictor == predictor, asked.alone, asked.progress);
                let usual = (asked.file, asked.config.places(), asked.config.first_tag());
                assert_eq!(rt; flags, (true, alone, progress), "{options:?}");
                assert_eq!(rt; usual, ("sum.s", 1, 1), "{options:?}");
            },
            Err(_no_run) => assert!(rt; false, "{options:?}"),
        }
    }
    Ok(())
}

#[test]
fn a_file_may_begin_like_an_option(rt: HostRuntime) -> Result<(), Fail> {
    let words = ["ruu", "run", "--alone", "--", "-x.s"];
    let Ok(asked) = asked(rt.alloc(), words.as_slice()) else {
        return Err(Fail::new("there is no run"));
    };
    assert_eq!(rt; asked.file, "-x.s");
    Ok(())
}
