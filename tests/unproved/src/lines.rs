//! The lines that tell of a run.
use command::{Line, Progress, Refusal};
use pool::Tally;
use std::process::Abort;
use std::test::*;

const TALLY: Tally = Tally {
    lets: 1,
    claims: 20,
    finishes: 300,
    stale: 4,
    loads: 50,
    retires: 600,
    squashes: 7,
    mends: 18_446_744_073_709_551_615,
    hints: 9,
    renewals: 10,
};

#[test]
fn a_line_names_what_was_refused_or_done(rt: HostRuntime) -> Result<(), Fail> {
    let lines: [(Line, &str); 8] = [
        (Line::Nothing, ""),
        (
            Line::Tally(TALLY),
            "tally lets 1 claims 20 finishes 300 stale 4 loads 50 retires 600 squashes 7 \
             mends 18446744073709551615 hints 9 renewals 10",
        ),
        (Line::Refused(Refusal::Open), "ruu: open"),
        (Line::Refused(Refusal::Read), "ruu: read"),
        (Line::Refused(Refusal::Memory), "ruu: memory"),
        (Line::Refused(Refusal::Thread), "ruu: thread"),
        (Line::Refused(Refusal::Write), "ruu: write"),
        (Line::Refused(Refusal::Trace), "ruu: trace"),
    ];
    for (line, text) in lines {
        let shown = line.to_string(rt.alloc())?;
        assert_eq!(rt; shown.as_str(), text);
    }
    Ok(())
}

// What a program may do with the tallies that its gate is told.
#[test]
fn progress_is_told_in_the_words_of_a_tally(rt: HostRuntime) -> Result<(), Fail> {
    let line = Progress { tally: TALLY }.to_string(rt.alloc())?;
    assert_eq!(rt;
        line.as_str(),
        "progress lets 1 claims 20 finishes 300 stale 4 loads 50 retires 600 squashes 7 \
         mends 18446744073709551615 hints 9 renewals 10"
    );
    Ok(())
}
