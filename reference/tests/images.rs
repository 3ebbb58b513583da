//! Images: one for each way to be broken, with the offset counted by hand.
//!
//! With its header kind 1 takes 8 bytes, kind 2 takes 14, kind 3 takes 8, kind 4 takes 8 and 4 for each word, kind 5
//! takes 8. So `two_guests` ends at 36.

mod common;

use common::*;
use reference::*;

/// An image must be broken at this offset by this rule, and load must say so and change nothing.
fn expect_broken(image: &Image, offset: usize, rule: Rule) {
    assert_eq!(judge(&image.0), Err(Broken { offset, rule }));
    let mut memory = vec![3; 5];
    let expected = Loaded {
        answer: Answer::BrokenImage,
        machine: blank(),
        budget: 0,
        offset,
    };
    assert_eq!(load(&image.0, &mut memory), expected, "{rule:?}");
    assert_eq!(memory, [3; 5]);
}

/// Images by the rule that each breaks, with the offset of the bad record; all else in them is good.
fn broken_headers() -> Vec<(Rule, usize, Image)> {
    vec![
        (Rule::HeaderCutShort, 0, Image::new().raw(&[4])),
        (Rule::HeaderCutShort, 8, Image::new().counts(2, 4).raw(&[4, 0])),
        (Rule::HeaderCutShort, 36, two_guests(4, 0, 0).raw(&[4, 0, 5])),
        (Rule::PayloadCutShort, 0, Image::new().raw(&[4, 0, 1, 0])),
        (Rule::PayloadCutShort, 0, Image::new().raw(&[4, 0, 1, 0, 2, 0, 4])),
        (
            Rule::PayloadCutShort,
            36,
            two_guests(4, 0, 0).raw(&[4, 0, 5, 0, 0, 0, 0]),
        ),
        (
            Rule::PayloadCutShort,
            36,
            two_guests(4, 0, 0).raw(&[0xFF, 0xFF, 4, 0, 0, 0, 0, 0]),
        ),
        (Rule::UnknownKind, 36, two_guests(4, 0, 0).record(0, &[]).budget(1)),
        (Rule::UnknownKind, 36, two_guests(4, 0, 0).record(6, &[0; 4]).budget(1)),
        (
            Rule::UnknownKind,
            36,
            two_guests(4, 0, 0).record(0x0105, &[0; 4]).budget(1),
        ),
        (
            Rule::UnknownKind,
            36,
            two_guests(4, 0, 0).record(0xFFFF, &[0; 4]).budget(1),
        ),
    ]
}

/// As `broken_headers`, about kind 1.
fn broken_counts() -> Vec<(Rule, usize, Image)> {
    vec![
        (Rule::FirstNotCounts, 0, Image::new().guest(0, 0, 1, 0).counts(2, 4)),
        (Rule::FirstNotCounts, 0, Image::new().budget(1)),
        (Rule::FirstNotCounts, 0, Image::new().record(9, &[])),
        (Rule::CountsLength, 0, Image::new().numbers(1, &[2])),
        (Rule::CountsLength, 0, Image::new().numbers(1, &[2, 4, 0])),
        (Rule::CountsTwice, 8, Image::new().counts(2, 4).counts(2, 4)),
        (Rule::CountsTwice, 36, two_guests(4, 0, 0).counts(2, 4).budget(1)),
        (Rule::GuestCountOutOfRange, 0, Image::new().counts(0, 4)),
        (Rule::GuestCountOutOfRange, 0, Image::new().counts(1, 4)),
        (Rule::GuestCountOutOfRange, 0, Image::new().counts(9, 64)),
        (Rule::GuestCountOutOfRange, 0, Image::new().counts(258, 64)),
        (Rule::GuestCountOutOfRange, 0, Image::new().counts(1, 900)),
        (Rule::PageCountOutOfRange, 0, Image::new().counts(2, 3)),
        (Rule::PageCountOutOfRange, 0, Image::new().counts(8, 15)),
        (Rule::PageCountOutOfRange, 0, Image::new().counts(2, 65)),
        (Rule::PageCountOutOfRange, 0, Image::new().counts(2, 256 + 8)),
    ]
}

/// As `broken_headers`, about kind 2.
fn broken_guests() -> Vec<(Rule, usize, Image)> {
    let counts = || Image::new().counts(2, 7);
    let one = || counts().guest(0, 2, 3, 0);
    vec![
        (Rule::GuestLength, 8, counts().numbers(2, &[0, 2, 3, 0])),
        (Rule::GuestLength, 8, counts().numbers(2, &[0, 2, 3, 0, 0, 0])),
        (Rule::GuestNotBelowN, 8, counts().guest(2, 2, 3, 0)),
        (Rule::GuestNotBelowN, 8, counts().guest(256, 2, 3, 0)),
        (Rule::GuestTwice, 22, one().guest(0, 4, 5, 0)),
        (Rule::TxNotBelowM, 8, counts().guest(0, 7, 3, 0)),
        (Rule::TxNotBelowM, 8, counts().guest(0, 258, 3, 0)),
        (Rule::TxAlreadyMailbox, 22, one().guest(1, 2, 5, 0)),
        (Rule::TxAlreadyMailbox, 22, one().guest(1, 3, 5, 0)),
        (Rule::TxHasOwner, 16, counts().owner(2, 1).guest(0, 2, 3, 0)),
        (Rule::RxNotBelowM, 8, counts().guest(0, 2, 7, 0)),
        (Rule::RxNotBelowM, 8, counts().guest(0, 2, 65_535, 0)),
        (Rule::RxIsTx, 8, counts().guest(0, 2, 2, 0)),
        (Rule::RxAlreadyMailbox, 22, one().guest(1, 4, 2, 0)),
        (Rule::RxAlreadyMailbox, 22, one().guest(1, 4, 3, 0)),
        (Rule::RxHasOwner, 16, counts().owner(3, 0).guest(0, 2, 3, 0)),
    ]
}

/// As `broken_headers`, about kinds 3 and 4.
fn broken_owners_and_words() -> Vec<(Rule, usize, Image)> {
    let base = || two_guests(5, 0, 0);
    vec![
        (Rule::OwnerLength, 36, base().numbers(3, &[4])),
        (Rule::OwnerLength, 36, base().numbers(3, &[4, 0, 0])),
        (Rule::OwnedPageNotBelowM, 36, base().owner(5, 0)),
        (Rule::OwnedPageNotBelowM, 36, base().owner(260, 0)),
        (Rule::OwnerNotBelowN, 36, base().owner(4, 2)),
        (Rule::OwnerNotBelowN, 36, base().owner(4, 256)),
        (Rule::OwnerTwice, 44, base().owner(4, 0).owner(4, 1)),
        (Rule::OwnerTwice, 44, base().owner(4, 0).owner(4, 0)),
        (Rule::OwnedPageIsMailbox, 36, base().owner(0, 0)),
        (Rule::OwnedPageIsMailbox, 36, base().owner(3, 1)),
        (Rule::WordsLength, 36, base().record(4, &[])),
        (Rule::WordsLength, 36, base().words(0, &[])),
        (Rule::WordsLength, 36, base().record(4, &[0; 7])),
        (Rule::WordsLength, 36, base().record(4, &[0; 9])),
        (Rule::WordsOutsideMemory, 36, base().words(5120, &[1])),
        (
            Rule::WordsOutsideMemory,
            48,
            base().words(5119, &[1]).words(5119, &[1, 2]),
        ),
        (Rule::WordsOutsideMemory, 36, base().words(0xFFFF_FFFF, &[1])),
        (Rule::WordsOutsideMemory, 36, base().words(0xFFFF_FFFF, &[1, 2])),
    ]
}

/// As `broken_headers`, about kind 5.
fn broken_budgets() -> Vec<(Rule, usize, Image)> {
    let base = || two_guests(5, 0, 0);
    vec![
        (Rule::BudgetLength, 36, base().record(5, &[1, 0])),
        (Rule::BudgetLength, 36, base().record(5, &[1, 0, 0, 0, 0])),
        (Rule::GuestMissing, 8, Image::new().counts(2, 5).budget(1)),
        (
            Rule::GuestMissing,
            22,
            Image::new().counts(2, 5).guest(1, 0, 1, 0).budget(1),
        ),
        (Rule::AfterBudget, 44, base().budget(1).raw(&[0])),
        (Rule::AfterBudget, 44, base().budget(1).owner(4, 0)),
        (Rule::AfterBudget, 44, base().budget(1).budget(1)),
        (Rule::BudgetMissing, 0, Image::new()),
        (Rule::BudgetMissing, 8, Image::new().counts(2, 5)),
        (Rule::BudgetMissing, 36, base()),
    ]
}

#[test]
fn every_rule_is_broken_by_its_images_at_their_offsets() {
    let first = [broken_headers(), broken_counts(), broken_guests()];
    let last = [broken_owners_and_words(), broken_budgets()];
    let mut seen = Vec::new();
    for (rule, offset, image) in first.into_iter().chain(last).flatten() {
        expect_broken(&image, offset, rule);
        seen.push(rule);
    }
    for rule in Rule::ALL {
        assert!(seen.contains(&rule), "no image breaks {rule:?}");
    }
    for rule in seen {
        assert!(Rule::ALL.contains(&rule), "{rule:?} is not listed");
    }
}

#[test]
fn every_rule_has_a_sentence_of_its_own() {
    let sentences: Vec<String> = Rule::ALL.iter().map(Rule::to_string).collect();
    for (position, sentence) in sentences.iter().enumerate() {
        assert!(!sentences[..position].contains(sentence), "{sentence}");
        assert!(sentence.len() > 10);
    }
}

#[test]
fn a_good_image_cut_anywhere_is_refused_at_the_record_it_is_cut_in() {
    let image = two_guests(5, 0, 0).owner(4, 1).words(3, &[1, 2]).budget(7);
    // Where the records start, and the end.
    let starts = [0, 8, 22, 36, 44, 60, 68];
    assert_eq!(image.0.len(), 68);
    for length in 0..68 {
        let cut = Image(image.0[..length].to_vec());
        let at = starts.iter().rev().find(|&&start| start <= length).copied();
        let broken = judge(&cut.0).expect_err("a cut image is broken");
        assert_eq!(Some(broken.offset), at, "{length} bytes");
    }
    assert_eq!(judge(&image.0), Ok(Judged { n: 2, m: 5, budget: 7 }));
}

#[test]
fn a_good_image_gives_exactly_this_machine() {
    let image = Image::new()
        .counts(2, 7)
        .words(0, &[1, 2, 3])
        .owner(6, 1)
        .guest(1, 5, 0, 0xFFFF_FFFF);
    let image = image
        .words(1, &[0xDEAD_BEEF])
        .words(7167, &[9])
        .guest(0, 2, 3, 1024)
        .owner(4, 0)
        .budget(0x0102_0304);
    let mut memory = vec![7; 7168];
    let loaded = load(&image.0, &mut memory);
    let mut machine = plain(0, 7);
    machine.n = 2;
    set_mailboxes(&mut machine, 1, 5, 0);
    set_mailboxes(&mut machine, 0, 2, 3);
    machine.guests[0].registers.pc = 1024;
    machine.guests[1].registers.pc = 0xFFFF_FFFF;
    set_owner(&mut machine, 6, 1);
    set_owner(&mut machine, 4, 0);
    assert_eq!(check(&machine, &memory), Answer::Done);
    assert_eq!(loaded.answer, Answer::Done);
    assert_eq!(loaded.machine, machine);
    assert_eq!((loaded.budget, loaded.offset), (0x0102_0304, 0));
    let mut words = vec![0; 7168];
    words[..3].copy_from_slice(&[1, 0xDEAD_BEEF, 3]);
    words[7167] = 9;
    assert!(memory == words);
}

#[test]
fn the_largest_and_smallest_counts_load() {
    for (n, m) in [(2u16, 4u16), (2, 64), (8, 16), (8, 64)] {
        let guests = (0..n).fold(Image::new().counts(n, m), |image, g| {
            image.guest(g, 2 * g, 2 * g + 1, 0)
        });
        let mut memory = vec![1; 1024 * usize::from(m)];
        let loaded = load(&guests.budget(u32::MAX).0, &mut memory);
        let expected = Loaded {
            answer: Answer::Done,
            machine: plain(n as u8, m as u8),
            budget: u32::MAX,
            offset: 0,
        };
        assert_eq!(loaded, expected);
        assert!(memory.iter().all(|&word| word == 0));
    }
}

#[test]
fn a_loaded_machine_is_sound() {
    let image = two_guests(9, 5, 6).owner(8, 0).owner(4, 1).budget(1);
    let mut memory = vec![0; 9216];
    let loaded = load(&image.0, &mut memory);
    assert_eq!(check(&loaded.machine, &memory), Answer::Done);
}
