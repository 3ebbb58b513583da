//! Soundness: a sound machine with every kind of page is changed in one place at a time.

mod common;

use common::*;
use reference::*;

/// Four guests and twenty pages. Mailboxes are pages 0 to 7; 8 and 9 are donated, 10 and 11 lent,
/// 12 to 15 shared, 16 and 17 owned, 18 and 19 spare. Handles 0, 2, 3, 5 and 6 are live.
fn rich() -> Machine {
    let mut machine = plain(4, 20);
    machine.current = VmId(3);
    let donated = transaction(0, 1, Kind::Donate, false, &[8, 9]);
    let lent_and_retrieved = transaction(1, 2, Kind::Lend, true, &[10]);
    let lent = transaction(2, 3, Kind::Lend, false, &[11]);
    let shared_and_retrieved = transaction(1, 0, Kind::Share, true, &[12, 13, 14]);
    let shared = transaction(3, 0, Kind::Share, false, &[15]);
    add(&mut machine, 0, donated, record(Some(0), 0, true));
    add(&mut machine, 2, lent_and_retrieved, record(Some(1), 0b0100, true));
    add(&mut machine, 3, lent, record(Some(2), 0, true));
    add(&mut machine, 5, shared_and_retrieved, record(Some(1), 0b0011, false));
    add(&mut machine, 6, shared, record(Some(3), 0b1000, false));
    set_owner(&mut machine, 16, 0);
    set_owner(&mut machine, 17, 3);
    let from = |sender, length| Inbox::Full { length, sender };
    machine.guests[0].inbox = from(VmId(3), 1);
    machine.guests[1].inbox = from(VmId(0), 1024);
    machine.guests[2].registers.r = [0xFFFF_FFFF; 8];
    machine.guests[2].registers.pc = 0xFFFF_FFFF;
    machine.guests[2].registers.equal = true;
    machine
}

/// Puts a live transaction behind a handle and gives its pages the record.
fn add(machine: &mut Machine, handle: usize, live: Transaction, due: PageRecord) {
    for page in live.dealt_pages() {
        machine.pages[usize::from(page.0)] = due;
    }
    machine.transactions[handle] = live;
}

/// The live handles of the rich machine, and how many pages each has.
const LIVE: [(usize, usize); 5] = [(0, 2), (2, 1), (3, 1), (5, 3), (6, 1)];

/// As much memory as any number of pages can ask for; soundness never looks at the words.
static WORDS: [u32; 1024 * 255] = [0; 1024 * 255];

/// Whether `check` answers 0 for the machine with memory that fits; if not, it must answer 2.
fn sound(machine: &Machine) -> bool {
    match check(machine, &WORDS[..1024 * usize::from(machine.m)]) {
        Answer::Done => true,
        Answer::Unsound => false,
        other => panic!("unexpected answer {other:?}"),
    }
}

/// Changes one thing in the rich machine and tells whether it is still sound.
fn sound_after(change: impl FnOnce(&mut Machine)) -> bool {
    let mut machine = rich();
    let before = machine.clone();
    change(&mut machine);
    assert!(machine != before, "the change must be one");
    sound(&machine)
}

/// The live deal behind a handle, to change it.
fn deal(machine: &mut Machine, handle: usize) -> &mut Deal {
    machine.transactions[handle].deal.as_mut().expect("the handle is live")
}

#[test]
fn the_rich_machine_is_sound_in_every_mode() {
    for mode in [Mode::Normal, Mode::Fault, Mode::Halted] {
        let mut machine = rich();
        machine.mode = mode;
        assert!(sound(&machine));
    }
}

#[test]
fn every_entry_tests_soundness() {
    let mut machine = rich();
    machine.pages[18].exclusive = true;
    let mut memory = memory_for(&machine);
    assert_eq!(check(&machine, &memory), Answer::Unsound);
    assert_eq!(step(&mut machine, &mut memory), Answer::Unsound);
    assert_eq!(run(&mut machine, &mut memory, 1), (Answer::Unsound, 0));
    assert_eq!(call(&mut machine, &mut memory), Answer::Unsound);
    assert_eq!(message(&machine, &memory, VmId(1)), []);
}

#[test]
fn counts_of_guests_and_pages() {
    for (n, m) in [(2, 4), (2, 64), (3, 6), (8, 16), (8, 64)] {
        assert!(sound(&plain(n, m)), "{n} guests and {m} pages");
    }
    // All but the counts of these is in order as far as there are places.
    for (n, m) in [
        (0, 0),
        (0, 64),
        (1, 2),
        (1, 64),
        (9, 64),
        (255, 64),
        (2, 65),
        (2, 255),
        (8, 65),
        (255, 255),
    ] {
        assert!(!sound(&plain(n, m)), "{n} guests and {m} pages");
    }
    // Too few pages: the mailboxes find no room.
    for (n, m) in [(2, 0), (2, 3), (8, 15)] {
        assert!(!sound(&plain(n, m)), "{n} guests and {m} pages");
    }
    for n in (0..=255).filter(|&n| n != 4) {
        assert!(!sound_after(|machine| machine.n = n), "{n} guests");
    }
    // Fewer pages cut off what is in use; more make blank places spare pages, which they may be.
    for m in (0..=255).filter(|&m| m != 20) {
        assert_eq!(
            sound_after(|machine| machine.m = m),
            (18..=64).contains(&m),
            "{m} pages"
        );
    }
}

#[test]
fn counts_of_a_transaction() {
    for (handle, pages) in LIVE {
        for count in (0..=255).filter(|&count| usize::from(count) != pages) {
            assert!(
                !sound_after(|machine| deal(machine, handle).count = count),
                "{handle}: {count}"
            );
        }
    }
    // No page at all, with the slots blank and the pages back with their owner.
    let empty = |machine: &mut Machine| {
        set_owner(machine, 11, 2);
        machine.transactions[3] = transaction(2, 3, Kind::Lend, false, &[]);
    };
    assert!(!sound_after(empty));
    // Eight pages are the most; a count of nine with all slots in order is too much.
    let mut full = plain(2, 12);
    full.transactions[15] = transaction(1, 0, Kind::Lend, false, &[4, 5, 6, 7, 8, 9, 10, 11]);
    full.pages[4..12].fill(record(Some(1), 0, true));
    assert!(sound(&full));
    for count in [9, 16, 255] {
        let mut over = full.clone();
        deal(&mut over, 15).count = count;
        assert!(!sound(&over), "{count}");
    }
}

#[test]
fn counts_of_a_message() {
    for (length, good) in [
        (0, false),
        (2, true),
        (1023, true),
        (1025, false),
        (65_537, false),
        (u32::MAX, false),
    ] {
        for (guest, sender) in [(0, 3), (1, 0), (2, 1), (3, 2)] {
            let full = Inbox::Full {
                length,
                sender: VmId(sender),
            };
            assert_eq!(
                sound_after(|machine| machine.guests[guest].inbox = full),
                good,
                "{guest}: {length}"
            );
        }
    }
}

#[test]
fn mailbox_pages() {
    for guest in 0..4 {
        for page in 0..=255 {
            let own = 2 * guest as u8;
            if page != own {
                assert!(
                    !sound_after(|machine| machine.guests[guest].tx = PageId(page)),
                    "TX {guest}: {page}"
                );
            }
            if page != own + 1 {
                assert!(
                    !sound_after(|machine| machine.guests[guest].rx = PageId(page)),
                    "RX {guest}: {page}"
                );
            }
        }
    }
    // TX and RX in one page, whose record is in order; the page left over is spare.
    let one_page = |machine: &mut Machine| {
        machine.guests[2].rx = machine.guests[2].tx;
        machine.pages[5] = record(None, 0, false);
    };
    assert!(!sound_after(one_page));
    // Exchanged, they are in order again.
    assert!(sound_after(|machine| {
        machine.guests[2].tx = PageId(5);
        machine.guests[2].rx = PageId(4);
    }));
}

#[test]
fn the_current_guest() {
    for current in (0..=255).filter(|&current| current != 3) {
        assert_eq!(
            sound_after(|machine| machine.current = VmId(current)),
            current < 4,
            "{current}"
        );
    }
}

#[test]
fn owners() {
    for page in 0..64 {
        let before = rich().pages[page].owner;
        let others = (0..=255).map(|owner| Some(VmId(owner))).chain([None]);
        for owner in others.filter(|&owner| owner != before) {
            assert!(
                !sound_after(|machine| machine.pages[page].owner = owner),
                "{page}: {owner:?}"
            );
        }
    }
    // A guest that there is not, with the record of an owned page.
    for owner in 4..8 {
        assert!(!sound_after(|machine| set_owner(machine, 16, owner)), "{owner}");
    }
    assert!(sound_after(|machine| set_owner(machine, 16, 2)));
}

#[test]
fn senders_of_messages() {
    for guest in 0..4 {
        for sender in 0..=255 {
            let full = Inbox::Full {
                length: 5,
                sender: VmId(sender),
            };
            let good = sender < 4 && usize::from(sender) != guest;
            assert_eq!(
                sound_after(|machine| machine.guests[guest].inbox = full),
                good,
                "{guest}: {sender}"
            );
        }
    }
    assert!(sound_after(|machine| machine.guests[0].inbox = Inbox::Empty));
}

#[test]
fn parties_of_a_transaction() {
    for (handle, _) in LIVE {
        let Deal {
            sender,
            receiver,
            retrieved,
            ..
        } = *deal(&mut rich(), handle);
        for number in 0..=255 {
            let vm = VmId(number);
            if vm != sender {
                assert!(
                    !sound_after(|machine| deal(machine, handle).sender = vm),
                    "{handle}: {number}"
                );
            }
            if vm != receiver {
                // Before the retrieval the records do not show the receiver.
                let good = !retrieved && vm != sender && number < 4;
                assert_eq!(
                    sound_after(|machine| deal(machine, handle).receiver = vm),
                    good,
                    "{handle}: {number}"
                );
            }
        }
    }
}

#[test]
fn parties_of_a_transaction_whose_records_agree_with_them() {
    // A sender that there is not, with the page records that it would have.
    assert!(!sound_after(|machine| {
        deal(machine, 3).sender = VmId(4);
        machine.pages[11].owner = Some(VmId(4));
    }));
    // A receiver that there is not, or the sender itself, with the access that it would have.
    assert!(!sound_after(|machine| {
        deal(machine, 2).receiver = VmId(4);
        machine.pages[10].access = VmSet(0b1_0000);
    }));
    assert!(!sound_after(|machine| {
        deal(machine, 2).receiver = VmId(1);
        machine.pages[10].access = VmSet(0b0010);
    }));
}

#[test]
fn kinds_and_marks_of_a_transaction() {
    // Not yet retrieved, a donation and a loan have the same records.
    let alike = [(0, Kind::Donate, Kind::Lend), (3, Kind::Lend, Kind::Donate)];
    for (handle, kind, other) in alike {
        assert!(
            sound_after(|machine| deal(machine, handle).kind = other),
            "{handle}: {kind:?} to {other:?}"
        );
        assert!(
            !sound_after(|machine| deal(machine, handle).kind = Kind::Share),
            "{handle}"
        );
    }
    for kind in [Kind::Donate, Kind::Share] {
        assert!(!sound_after(|machine| deal(machine, 2).kind = kind), "{kind:?}");
    }
    for kind in [Kind::Donate, Kind::Lend] {
        assert!(!sound_after(|machine| deal(machine, 5).kind = kind), "{kind:?}");
        assert!(!sound_after(|machine| deal(machine, 6).kind = kind), "{kind:?}");
    }
    for (handle, _) in LIVE {
        assert!(
            !sound_after(|machine| deal(machine, handle).retrieved ^= true),
            "{handle}"
        );
    }
}

#[test]
fn no_donation_is_retrieved_whatever_the_records() {
    let rows = [
        (0, true),
        (0b0001, true),
        (0b0010, true),
        (0b0001, false),
        (0b0011, false),
    ];
    for (access, exclusive) in rows {
        for owner in [0, 1] {
            let change = |machine: &mut Machine| {
                deal(machine, 0).retrieved = true;
                machine.pages[8] = record(Some(owner), access, exclusive);
                machine.pages[9] = record(Some(owner), access, exclusive);
            };
            assert!(!sound_after(change), "{owner} {access:b} {exclusive}");
        }
    }
}

#[test]
fn page_slots_of_a_transaction() {
    for (handle, _) in LIVE {
        for slot in 0..8 {
            let before = rich().transactions[handle].pages[slot];
            for page in (0..=255).map(PageId).filter(|&page| page != before) {
                let change = |machine: &mut Machine| machine.transactions[handle].pages[slot] = page;
                assert!(!sound_after(change), "{handle}.{slot}: {page:?}");
            }
        }
    }
    // The same pages in another order.
    assert!(!sound_after(|machine| machine.transactions[0].pages.swap(0, 1)));
    assert!(!sound_after(|machine| machine.transactions[5].pages.swap(1, 2)));
    // One page twice, the other one back with its owner.
    assert!(!sound_after(|machine| {
        machine.transactions[0].pages[1] = PageId(8);
        set_owner(machine, 9, 0);
    }));
    // A page from m on, with the record that it would have.
    assert!(!sound_after(|machine| {
        machine.transactions[6].pages[0] = PageId(20);
        machine.pages[20] = machine.pages[15];
        set_owner(machine, 15, 3);
    }));
    // A mailbox page of the sender, with either record.
    for due in [record(Some(3), 0b1000, false), record(None, 0b1000, true)] {
        assert!(!sound_after(|machine| {
            machine.transactions[6].pages[0] = PageId(6);
            machine.pages[6] = due;
            set_owner(machine, 15, 3);
        }));
    }
}

#[test]
fn no_page_is_in_two_transactions() {
    // The records would be due for both.
    for (handle, _) in LIVE {
        assert!(
            !sound_after(|machine| machine.transactions[15] = machine.transactions[handle]),
            "{handle}"
        );
    }
    // Only the last page in common.
    assert!(!sound_after(
        |machine| machine.transactions[15] = transaction(1, 0, Kind::Share, true, &[14])
    ));
}

#[test]
fn access_and_exclusive_marks() {
    for page in 0..64 {
        let before = rich().pages[page].access;
        for access in (0..=255).map(VmSet).filter(|&access| access != before) {
            assert!(
                !sound_after(|machine| machine.pages[page].access = access),
                "{page}: {access:?}"
            );
        }
        assert!(!sound_after(|machine| machine.pages[page].exclusive ^= true), "{page}");
    }
}

#[test]
fn no_record_of_one_row_stands_for_another() {
    let rows: Vec<PageRecord> = rich().pages[..20].to_vec();
    for page in 0..20 {
        let before = rows[page];
        // Pages in no transaction may have any owner or none.
        let free_page = page >= 16;
        for &row in rows.iter().filter(|&&row| row != before) {
            let is_owned_row = row == rows[16] || row == rows[17];
            let good = free_page && (is_owned_row || row == rows[18]);
            assert_eq!(
                sound_after(|machine| machine.pages[page] = row),
                good,
                "{page}: {row:?}"
            );
        }
    }
}

#[test]
fn unused_guests_are_blank() {
    for guest in 4..8 {
        for register in 0..8 {
            assert!(
                !sound_after(|machine| machine.guests[guest].registers.r[register] = 1),
                "{guest}.{register}"
            );
        }
        assert!(!sound_after(|machine| machine.guests[guest].registers.pc = 0x8000_0000));
        assert!(!sound_after(|machine| machine.guests[guest].registers.equal = true));
        assert!(!sound_after(|machine| machine.guests[guest].tx = PageId(18)));
        assert!(!sound_after(|machine| machine.guests[guest].rx = PageId(18)));
        assert!(!sound_after(|machine| machine.guests[guest].inbox = Inbox::Full {
            length: 1,
            sender: VmId(0)
        }));
        assert!(!sound_after(|machine| machine.guests[guest].inbox = Inbox::Full {
            length: 0,
            sender: VmId(0)
        }));
    }
    // In a used guest these are free.
    for guest in 0..4 {
        assert!(sound_after(|machine| machine.guests[guest].registers.r[7] = 1));
        assert!(sound_after(|machine| machine.guests[guest].registers.pc = 1));
        assert!(sound_after(|machine| machine.guests[guest].registers.equal ^= true));
    }
}

#[test]
fn free_handles_are_blank() {
    for handle in (0..16).filter(|&handle| LIVE.iter().all(|live| live.0 != handle)) {
        for slot in 0..8 {
            for page in [1, 18, 255] {
                let change = |machine: &mut Machine| machine.transactions[handle].pages[slot] = PageId(page);
                assert!(!sound_after(change), "{handle}.{slot}");
            }
        }
        // A deal about nothing, or about page 0, which is a mailbox page.
        assert!(!sound_after(
            |machine| machine.transactions[handle] = transaction(0, 1, Kind::Lend, false, &[])
        ));
        assert!(!sound_after(
            |machine| machine.transactions[handle] = transaction(0, 1, Kind::Lend, false, &[0])
        ));
    }
    // A live handle that loses its deal leaves its pages behind.
    for (handle, _) in LIVE {
        assert!(
            !sound_after(|machine| machine.transactions[handle].deal = None),
            "{handle}"
        );
        assert!(
            !sound_after(|machine| machine.transactions[handle] = Transaction::FREE),
            "{handle}"
        );
    }
}

#[test]
fn no_machine_makes_the_check_fail() {
    // Every number as large as its type allows, everywhere.
    let mut machine = rich();
    machine.guests = [Guest {
        tx: PageId(255),
        rx: PageId(255),
        ..rich().guests[1]
    }; 8];
    let mut wild = transaction(255, 255, Kind::Donate, true, &[255; 8]);
    wild.deal.as_mut().expect("the transaction is live").count = 255;
    machine.transactions = [wild; 16];
    machine.pages = [record(Some(255), 255, true); 64];
    machine.current = VmId(255);
    for (n, m) in [(0, 0), (8, 64), (9, 65), (255, 255), (2, 255), (255, 2)] {
        machine.n = n;
        machine.m = m;
        assert!(!sound(&machine));
        let mut memory = memory_for(&machine);
        assert_eq!(step(&mut machine, &mut memory), Answer::Unsound);
        assert_eq!(call(&mut machine, &mut memory), Answer::Unsound);
        assert_eq!(run(&mut machine, &mut memory, 1), (Answer::Unsound, 0));
        assert_eq!(message(&machine, &memory, VmId(255)), []);
    }
}
