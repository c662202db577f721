//! Seeds, charts and logs, and the words that ask for them.
use command_line::*;

const MOST: u64 = 18_446_744_073_709_551_615;

#[test]
fn a_run_takes_a_seed_of_its_order(rt: HostRuntime) {
    let cases: [(&[&str], Option<u64>, Option<u64>); 5] = [
        (&["ruu", "run", "sum.s"], None, None),
        (&["ruu", "run", "sum.s", "--alone"], None, None),
        (
            &["ruu", "run", "sum.s", "--alone", "--seed", "0"],
            Some(0),
            None,
        ),
        (
            &["ruu", "run", "--seed=18446744073709551615", "--alone", "x"],
            Some(MOST),
            None,
        ),
        (&["ruu", "run", "--shake", "7", "sum.s"], None, Some(7)),
    ];
    for (words, seed, shake) in cases {
        match asked(rt.alloc(), words) {
            Ok(asked) => {
                assert_eq!(rt; asked.seed, seed, "{words:?}");
                assert_eq!(rt; asked.shake, shake, "{words:?}");
            },
            Err(_no_run) => assert!(rt; false, "{words:?}"),
        }
    }
}

#[test]
fn takes_a_chart_and_a_log(rt: HostRuntime) {
    let cases: [(&[&str], Option<u64>, Option<&str>); 3] = [
        (&["ruu", "chart", "sum.s"], None, None),
        (
            &["ruu", "chart", "--trace", "sum.log", "sum.s"],
            None,
            Some("sum.log"),
        ),
        (
            &["ruu", "chart", "sum.s", "--seed", "3", "--trace=a b"],
            Some(3),
            Some("a b"),
        ),
    ];
    for (words, seed, log) in cases {
        match parse_chart(rt.alloc(), words) {
            Ok(charted) => {
                assert_eq!(rt; charted.run.seed, seed, "{words:?}");
                assert_eq!(rt; charted.log, log, "{words:?}");
                assert_eq!(rt; charted.run.file, "sum.s");
            },
            Err(_no_run) => assert!(rt; false, "{words:?}"),
        }
    }
}

#[test]
fn takes_a_log_of_commits(rt: HostRuntime) {
    let cases: [(&[&str], u64, u64, u64, bool); 3] = [
        (&["ruu", "commits", "sum.s"], 1_000_000, 1, 0, false),
        (
            &["ruu", "commits", "sum.s", "--limit", "9", "--text"],
            9,
            1,
            0,
            true,
        ),
        (
            &["ruu", "commits", "--from=7", "--hash", "100", "sum.s"],
            1_000_000,
            7,
            100,
            false,
        ),
    ];
    for (words, limit, from, hash, text) in cases {
        match parse_commits(rt.alloc(), words) {
            Ok(committed) => {
                assert_eq!(rt; committed.file, "sum.s");
                assert_eq!(rt; committed.limit, limit, "{words:?}");
                assert_eq!(rt; committed.from, from, "{words:?}");
                assert_eq!(rt; committed.hash, hash, "{words:?}");
                assert_eq!(rt; committed.text, text, "{words:?}");
            },
            Err(_no_run) => assert!(rt; false, "{words:?}"),
        }
    }
}
