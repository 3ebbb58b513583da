//! The generator itself: what it makes is fixed by seed and number, and meets everything that can occur.

use std::collections::BTreeSet;
use std::sync::OnceLock;

use reference::generate::counts::{measure, report, tally, Tally};
use reference::generate::possible::possible;
use reference::generate::{make, Class};
use reference::{bench_text, judge};

/// The seed of the count, and how many of its images meet everything, as for the other seeds that were tried.
const SEED: u64 = 1;
const COUNT: u64 = 960;

/// What these images meet, counted once for all tests.
fn full() -> Tally {
    static FULL: OnceLock<Tally> = OnceLock::new();
    FULL.get_or_init(|| tally(SEED, COUNT).expect("the oracle agrees"))
        .clone()
}

#[test]
fn so_many_images_meet_everything() {
    let (text, everything) = report(&full());
    let list = possible().len();
    assert!(everything, "{text}");
    assert!(text.ends_with(&format!("all {list} of {list} met\n")));
}

#[test]
fn the_list_of_what_can_occur_has_no_entry_twice() {
    let list = possible();
    let set: BTreeSet<&String> = list.iter().collect();
    assert_eq!(set.len(), list.len());
}

#[test]
fn fewer_images_do_not_meet_everything() {
    let (text, everything) = report(&tally(SEED, 32).expect("the oracle agrees"));
    assert!(!everything);
    assert!(text.contains("not met: "));
}

#[test]
fn a_single_entry_that_is_missing_is_found() {
    let full = full();
    for label in possible() {
        let (text, everything) = report(&full.without(&label));
        assert!(!everything, "{label}");
        assert!(text.contains(&format!("not met: {label}\n")));
    }
}

#[test]
fn what_cannot_occur_is_found_if_it_is_met() {
    let mut full = full();
    full.meet("call Reclaim ABORTED");
    let (text, everything) = report(&full);
    assert!(!everything);
    assert!(text.contains("met, but cannot occur: call Reclaim ABORTED\n"));
}

#[test]
fn an_image_is_a_function_of_seed_and_number() {
    for number in 0..64 {
        let one = make(7, number).expect("the oracle agrees");
        assert_eq!(make(7, number), Ok(one.clone()));
        assert_eq!(one.class, Class::of(number).0);
        // Two empty images, or two of the same few bytes, are no wonder among damaged ones.
        let other = make(8, number).expect("the oracle agrees");
        assert!(one.bytes != other.bytes || one.bytes.len() < 20, "image {number}");
    }
}

#[test]
fn two_numbers_of_a_seed_give_two_images() {
    let programs: BTreeSet<Vec<u8>> = (0..160)
        .filter(|&number| Class::of(number).0 == Class::Program)
        .map(|number| make(3, number).expect("the oracle agrees").bytes)
        .collect();
    assert_eq!(programs.len(), 80);
}

#[test]
fn only_what_the_bench_runs_counts_as_shown() {
    let (mut run, mut refused) = (0, 0);
    for number in (0..256).filter(|&number| Class::of(number).0 == Class::Program) {
        let made = make(SEED, number).expect("the oracle agrees");
        let mut tally = Tally::default();
        measure(&made, &mut tally).expect("the oracle agrees");
        let shown = tally.entries().any(|(label, _)| label.starts_with("shown "));
        assert!(tally.entries().any(|(label, _)| label.starts_with("end ")));
        if judge(&made.bytes).expect("a good image").m > 16 {
            assert_eq!(bench_text(&made.bytes), "refused 1\n");
            assert!(!shown, "image {number}");
            refused += 1;
        } else {
            assert!(shown, "image {number}");
            run += 1;
        }
    }
    assert!(run > 50 && refused > 10, "{run} run, {refused} refused");
}

#[test]
fn the_bench_can_show_all_of_a_run_but_what_needs_all_handles() {
    let list = possible();
    let hidden: Vec<&String> = list
        .iter()
        .filter(|label| label.starts_with("call "))
        .filter(|label| !list.contains(&format!("shown {label}")))
        .collect();
    let never = ["Donate", "Lend", "Share"].map(|call| format!("call {call} NO_MEMORY"));
    assert_eq!(hidden, never.iter().collect::<Vec<_>>());
    assert!(!list.contains(&"shown story 16 transactions open".to_string()));
    assert!(list.contains(&"shown story 8 to 15 transactions open".to_string()));
}
