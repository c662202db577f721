//! Command lines of units that are driven by hand.
use command_line::*;
use std::test::Fail;

const WORDS: [&str; 8] = [
    "ruu",
    "drive",
    "double.s",
    "--ruu-size",
    "2",
    "--first-tag",
    "7",
    "--quiet-prompt",
];

#[test]
fn a_command_line_asks_for_a_unit_to_drive(rt: HostRuntime) -> Result<(), Fail> {
    let words = WORDS;
    let Ok(hand) = parse_drive(rt.alloc(), words.as_slice()) else {
        return Err(Fail::new("there is nothing to drive"));
    };
    let sizes = (hand.config.ring(), hand.config.queue());
    assert_eq!(rt; hand.file, "double.s");
    assert_eq!(rt; (sizes, hand.config.first_tag()), ((2, 2), 7));
    assert_eq!(rt; (hand.quiet_prompt, hand.echo), (true, false));
    Ok(())
}

#[test]
fn a_unit_to_drive_has_its_usual_sizes(rt: HostRuntime) -> Result<(), Fail> {
    let words = ["ruu", "drive", "double.s"];
    let Ok(hand) = parse_drive(rt.alloc(), words.as_slice()) else {
        return Err(Fail::new("there is nothing to drive"));
    };
    let sizes = (hand.config.ring(), hand.config.queue());
    assert_eq!(rt; (sizes, hand.config.first_tag()), ((16, 8), 1));
    assert_eq!(rt;
        (hand.quiet_prompt, hand.seed, hand.steps),
        (false, None, 400)
    );
    assert!(rt; hand.predictor == BranchPredictor::Bimod);
    Ok(())
}

#[test]
fn a_unit_to_drive_may_choose_its_commands(rt: HostRuntime) -> Result<(), Fail> {
    let words = [
        "ruu",
        "drive",
        "double.s",
        "--echo",
        "--shuffle",
        "9",
        "--steps=7",
    ];
    let Ok(hand) = parse_drive(rt.alloc(), words.as_slice()) else {
        return Err(Fail::new("there is nothing to drive"));
    };
    assert_eq!(rt; (hand.echo, hand.seed, hand.steps), (true, Some(9), 7));
    Ok(())
}

#[test]
fn the_last_first_tag_is_taken(rt: HostRuntime) {
    let words = ["ruu", "drive", "double.s", "--first-tag", "268435454"];
    assert!(rt; parse_drive(rt.alloc(), words.as_slice()).is_ok());
}
