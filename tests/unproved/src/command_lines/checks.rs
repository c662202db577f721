//! Command lines of checks, and what is told where there is no run.
use command_line::*;
use std::test::Fail;

#[test]
fn a_check_takes_its_file_and_whether_all_is_wanted(rt: HostRuntime) -> Result<(), Fail> {
    let words = ["ruu", "check", "sum.s", "--all"];
    let Ok(checked) = parse_check(rt.alloc(), words.as_slice()) else {
        return Err(Fail::new("there is nothing to check"));
    };
    assert_eq!(rt; checked.file, "sum.s");
    assert!(rt; checked.all);
    Ok(())
}

#[test]
fn a_dash_alone_is_standard_input(rt: HostRuntime) {
    for file in ["", "./-", "--", "sum.s"] {
        assert!(rt; !is_standard_input(file), "{file}");
    }
    assert!(rt; is_standard_input("-"));
}

#[test]
fn want_of_memory_is_named(rt: HostRuntime) -> Result<(), Fail> {
    let text = NoRun::Memory.to_string(rt.alloc())?;
    assert_eq!(rt; text.as_str(), "ruu: memory");
    assert_eq!(rt; status(&NoRun::Memory), 5);
    Ok(())
}
