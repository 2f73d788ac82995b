//! The number of the interface. The test that is ignored is for an archive of another number, which the gate
//! makes (`.ci/callers`).

use std::panic::catch_unwind;

use juzvanec::*;

/// A function by its name, and a call of it; what it answers does not matter here.
type Call = (&'static str, fn() -> bool);

/// Every safe function that calls the archive.
const CALLS: [Call; 13] = [
    ("cache_colours", || cache_colours(4096, 1).is_ok()),
    ("layout", || layout(1, 1, 0).is_ok()),
    ("bleach", || bleach(1, 1, 0).is_ok()),
    ("look", || look(&board(), &[FREE], 0, 0).is_ok()),
    ("fault", || fault(&board(), &mut [FREE], 0, 0).is_ok()),
    ("release", || release(&board(), &mut [FREE], 0, 0).is_ok()),
    ("colours", || colours(&board(), &[FREE], 0).is_ok()),
    ("set_quota", || {
        set_quota(&mut board(), &[FREE], 0, 1).is_ok()
    }),
    ("recolour", || {
        recolour(&mut board(), &mut [FREE], 0, 1, &mut []).is_ok()
    }),
    ("take_back", || {
        take_back(&mut board(), &mut [FREE], 0, 1, &[]).is_ok()
    }),
    ("part", || part(&[], 0).is_empty()),
    ("admit_plan", || {
        admit_plan(&board(), 0, &[], &[], &mut [], &mut []).is_ok()
    }),
    ("admit", || admit(&[]).admitted().is_ok()),
];

fn board() -> Board {
    Board::new(1, 1, &[1])
}

#[test]
fn the_list_is_whole() {
    let offered = include_str!("../src/calls.rs").lines();
    let offered = offered.filter_map(|line| line.strip_prefix("pub fn ")?.split('(').next());
    assert!(offered.eq(CALLS.map(|(name, _)| name)));
}

#[test]
fn the_archive_is_of_this_interface() {
    // SAFETY: nothing is lent.
    assert_eq!(unsafe { raw::juzvanec_interface() }, INTERFACE);
    for (_, call) in CALLS {
        call();
    }
}

#[test]
#[ignore = "for an archive of another interface"]
fn every_function_notices_another_archive() {
    for (name, call) in CALLS {
        let panic = catch_unwind(call).expect_err(name);
        let text = panic.downcast_ref::<String>().expect("a text");
        assert!(text.starts_with("libjuzvanec.a has interface "), "{text}");
    }
}
