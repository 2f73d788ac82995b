//! The command `reference compare`, run on the tool's own answers, which must not differ, and on programs
//! that spoil them.

use std::fs;
use std::os::unix::fs::PermissionsExt;
use std::path::{Path, PathBuf};
use std::process::Command;

const TOOL: &str = env!("CARGO_BIN_EXE_reference");

/// A program that is a line of shell, with `admit` for the tool's own answer.
fn script(name: &str, line: &str) -> PathBuf {
    let path = Path::new(env!("CARGO_TARGET_TMPDIR")).join(name);
    let line = line.replace("admit", &format!("'{TOOL}' admit"));
    fs::write(&path, format!("#!/bin/sh\n{line}\n")).unwrap();
    fs::set_permissions(&path, fs::Permissions::from_mode(0o755)).unwrap();
    path
}

/// What the command printed, and whether it succeeded.
fn compare(program: &Path, cases: &str) -> (String, bool) {
    let run = Command::new(TOOL)
        .arg("compare")
        .arg(program)
        .args([cases, "5"])
        .output()
        .unwrap();
    (String::from_utf8(run.stdout).unwrap(), run.status.success())
}

/// The number of differences in the last line.
fn differences(printed: &str, cases: u32) -> u32 {
    let last = printed.lines().last().unwrap();
    let front = format!("{cases} cases, ");
    let rest = last.strip_prefix(&front).unwrap();
    rest.strip_suffix(" differences").unwrap().parse().unwrap()
}

/// In one test, since a script that is still written while another test starts a program may not run.
#[test]
fn the_tool_and_programs_that_spoil_its_answers() {
    let same = script("same", "exec admit");
    let spoilt = [
        script("first_read", "dd bs=65536 count=1 2>/dev/null | admit"),
        script("late_rows", "admit | sed 's/^refused 22 .*/refused 22 0/'"),
        script("failure", "admit; exit 1"),
    ];
    let (printed, good) = compare(&same, "200");
    assert_eq!((differences(&printed, 200), good), (0, true), "{printed}");
    // the first inputs are about as long as the longest plan
    let soon = [
        script("byte_too_many", "head -c 2872 | admit"),
        script("no_input", "admit </dev/null"),
        script("no_output", "admit >/dev/null"),
    ];
    let spoilt = spoilt.iter().map(|program| (program, 200));
    for (program, cases) in spoilt.chain(soon.iter().map(|program| (program, 12))) {
        let (printed, good) = compare(program, &cases.to_string());
        assert!(differences(&printed, cases) > 0, "{}", program.display());
        assert!(printed.contains("expected:\n"));
        assert!(!good);
    }
}
