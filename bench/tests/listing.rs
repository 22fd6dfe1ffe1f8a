//! The proved program prints what the second implementation prints, byte for byte.

use bench::both::listing;
use bench::{program, runs};
use reference::generate::sheet;
use reference::special::{special, P1};
use std::time::Duration;

#[test]
fn generated_sheets() {
    // How many listings were a refusal.
    let refused = (10_000..10_600).filter(|&seed| listing(&sheet(seed)).starts_with(b"ff")).count();
    assert!((100..500).contains(&refused), "{refused} sheets of 600 were refused");
}

#[test]
fn special_sheets() {
    for (_, sheet) in special() {
        listing(&sheet);
    }
}

#[test]
fn sheets_of_the_benchmark() {
    for (_, sheet) in runs::ordinary().into_iter().chain(runs::crowded()) {
        listing(&sheet);
    }
}

/// A sheet is what stands on standard input up to its end, however it arrives.
#[test]
fn sheet_in_pieces() {
    let longest = special().into_iter().find(|(name, _)| *name == "longest valid sheet").expect("a sheet").1;
    for (sheet, piece) in [(P1, 1), (P1, 7), (&longest[..], 100), (&longest[..], 4096)] {
        let printed = program::listing_of_pieces(&program::examiner(), sheet, piece, Duration::from_millis(1));
        assert!(printed == reference::listing(sheet), "pieces of {piece}");
    }
}

/// An accepted sheet with a megabyte behind it is too long.
#[test]
fn much_too_long() {
    assert_eq!(listing(&[P1, &b"05020100020001\n".repeat(70_000)].concat()), b"ff010000\n");
}
