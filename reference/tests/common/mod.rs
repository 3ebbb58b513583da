//! What the tests have in common: machines written out by hand, calls made by hand, images built record by record.

// Every test file uses another part of these helpers.
#![allow(dead_code)]

use reference::*;

pub const SUCCESS: u32 = 0x8400_0061;
pub const ERROR: u32 = 0x8400_0060;

pub const RUN: u32 = 0x8400_006D;
pub const YIELD: u32 = 0x8400_006C;
pub const POLL: u32 = 0x8400_006A;
pub const WAIT: u32 = 0x8400_006B;
pub const SEND: u32 = 0x8400_006E;
pub const DONATE: u32 = 0x8400_0071;
pub const LEND: u32 = 0x8400_0072;
pub const SHARE: u32 = 0x8400_0073;
pub const RETRIEVE: u32 = 0x8400_0074;
pub const RELINQUISH: u32 = 0x8400_0076;
pub const RECLAIM: u32 = 0x8400_0077;

pub const NOT_SUPPORTED: u32 = 4_294_967_295;
pub const INVALID: u32 = 4_294_967_294;
pub const NO_MEMORY: u32 = 4_294_967_293;
pub const BUSY: u32 = 4_294_967_292;
pub const DENIED: u32 = 4_294_967_290;
pub const ABORTED: u32 = 4_294_967_288;
pub const NO_DATA: u32 = 4_294_967_287;

pub const G0: VmId = VmId(0);
pub const G1: VmId = VmId(1);
pub const G2: VmId = VmId(2);

/// A page record; bit g of the access stands for guest g.
pub fn record(owner: Option<u8>, access: u8, exclusive: bool) -> PageRecord {
    PageRecord {
        owner: owner.map(VmId),
        access: VmSet(access),
        exclusive,
    }
}

/// The blank machine, written out.
pub fn blank() -> Machine {
    let guest = Guest {
        registers: Registers {
            r: [0, 0, 0, 0, 0, 0, 0, 0],
            pc: 0,
            equal: false,
        },
        tx: PageId(0),
        rx: PageId(0),
        inbox: Inbox::Empty,
    };
    let free = Transaction {
        deal: None,
        pages: [PageId(0); 8],
    };
    Machine {
        n: 0,
        m: 0,
        guests: [guest; 8],
        pages: [record(None, 0, false); 64],
        transactions: [free; 16],
        current: VmId(0),
        mode: Mode::Halted,
    }
}

/// A machine in normal mode whose guest i has the mailbox pages 2i and 2i + 1 and whose other pages are spare.
/// Counts that no machine can have are kept, with as many guests as there are places for.
pub fn plain(n: u8, m: u8) -> Machine {
    let mut machine = blank();
    machine.n = n;
    machine.m = m;
    machine.mode = Mode::Normal;
    for i in 0..n.min(8) {
        set_mailboxes(&mut machine, i, 2 * i, 2 * i + 1);
    }
    machine
}

/// Gives guest i its TX and RX page.
pub fn set_mailboxes(machine: &mut Machine, i: u8, tx: u8, rx: u8) {
    let guest = &mut machine.guests[usize::from(i)];
    guest.tx = PageId(tx);
    guest.rx = PageId(rx);
    machine.pages[usize::from(tx)] = record(None, 1 << i, true);
    machine.pages[usize::from(rx)] = record(None, 1 << i, true);
}

/// Makes guest i the owner of a page that is in no transaction.
pub fn set_owner(machine: &mut Machine, page: u8, i: u8) {
    machine.pages[usize::from(page)] = record(Some(i), 1 << i, true);
}

/// The machine of the bench cases and its memory: 3 guests and 10 pages, of which 0 to 2 and 9 have owners.
pub fn case_machine() -> (Machine, Vec<u32>) {
    let mut machine = plain(0, 10);
    machine.n = 3;
    set_mailboxes(&mut machine, 0, 3, 4);
    set_mailboxes(&mut machine, 1, 5, 6);
    set_mailboxes(&mut machine, 2, 7, 8);
    set_owner(&mut machine, 0, 0);
    set_owner(&mut machine, 1, 1);
    set_owner(&mut machine, 2, 2);
    set_owner(&mut machine, 9, 1);
    (machine, vec![0; 10_240])
}

/// Memory for a machine, every word zero.
pub fn memory_for(machine: &Machine) -> Vec<u32> {
    vec![0; 1024 * usize::from(machine.m)]
}

/// Writes words to the start of a guest's TX page.
pub fn write_tx(machine: &Machine, memory: &mut [u32], vm: VmId, words: &[u32]) {
    let base = 1024 * usize::from(machine.guests[usize::from(vm.0)].tx.0);
    memory[base..base + words.len()].copy_from_slice(words);
}

/// Makes a guest current and sets its R0, R1 and R2.
pub fn prepare(machine: &mut Machine, vm: VmId, arguments: [u32; 3]) {
    machine.current = vm;
    machine.guests[usize::from(vm.0)].registers.r[..3].copy_from_slice(&arguments);
}

/// R0, R1 and R2 of a guest.
pub fn registers(machine: &Machine, vm: VmId) -> [u32; 3] {
    let r = machine.guests[usize::from(vm.0)].registers.r;
    [r[0], r[1], r[2]]
}

/// Makes a guest current, lets it call, and gives its R0, R1 and R2 afterwards.
/// The entry must answer 0 and leave a sound machine.
pub fn make_call(machine: &mut Machine, memory: &mut [u32], vm: VmId, arguments: [u32; 3]) -> [u32; 3] {
    prepare(machine, vm, arguments);
    let flagged = called_with_flags(machine, memory);
    assert_eq!(call(machine, memory), Answer::Done);
    assert_eq!(check(machine, memory), Answer::Done);
    assert_eq!(flagged, *machine, "a call looks at a flag");
    registers(machine, vm)
}

/// What the current guest's call leaves if every guest's flag is set before; the flags must stay so, and are cleared then.
fn called_with_flags(machine: &Machine, memory: &[u32]) -> Machine {
    let (mut machine, mut memory) = (machine.clone(), memory.to_vec());
    let n = usize::from(machine.n);
    for guest in &mut machine.guests[..n] {
        guest.registers.equal = true;
    }
    assert_eq!(call(&mut machine, &mut memory), Answer::Done);
    for guest in &mut machine.guests[..n] {
        assert!(guest.registers.equal, "a call changes a flag");
        guest.registers.equal = false;
    }
    machine
}

/// Lets a guest call, expects the error, and expects nothing to change but its R0 and R2.
pub fn expect_error(machine: &mut Machine, memory: &mut [u32], vm: VmId, arguments: [u32; 3], code: u32) {
    prepare(machine, vm, arguments);
    let mut expected = machine.clone();
    expected.guests[usize::from(vm.0)].registers.r[0] = ERROR;
    expected.guests[usize::from(vm.0)].registers.r[2] = code;
    let expected_memory = memory.to_vec();
    let flagged = called_with_flags(machine, memory);
    assert_eq!(call(machine, memory), Answer::Done);
    assert_eq!(*machine, expected);
    assert_eq!(flagged, expected);
    assert!(memory == expected_memory, "a call with an error changed memory");
}

/// Guest `vm` opens a transaction by this call: the descriptor is written for it. Gives R0, R1 and R2 afterwards.
pub fn open(
    machine: &mut Machine,
    memory: &mut [u32],
    vm: VmId,
    number: u32,
    receiver: u32,
    bases: &[u32],
) -> [u32; 3] {
    let length = 2 + bases.len() as u32;
    let mut words = vec![length, receiver << 16 | (number - DONATE + 1)];
    words.extend_from_slice(bases);
    write_tx(machine, memory, vm, &words);
    make_call(machine, memory, vm, [number, length, 77])
}

/// A live transaction.
pub fn transaction(sender: u8, receiver: u8, kind: Kind, retrieved: bool, pages: &[u8]) -> Transaction {
    let mut slots = [PageId(0); 8];
    for (slot, &page) in slots.iter_mut().zip(pages) {
        *slot = PageId(page);
    }
    let deal = Deal {
        sender: VmId(sender),
        receiver: VmId(receiver),
        kind,
        retrieved,
        count: pages.len() as u8,
    };
    Transaction {
        deal: Some(deal),
        pages: slots,
    }
}

/// An image, built record by record.
#[derive(Clone, Default)]
pub struct Image(pub Vec<u8>);

impl Image {
    /// An image without a record.
    pub fn new() -> Image {
        Image(Vec::new())
    }

    /// Adds bytes as they are.
    pub fn raw(mut self, bytes: &[u8]) -> Image {
        self.0.extend_from_slice(bytes);
        self
    }

    /// Adds a record.
    pub fn record(self, kind: u16, payload: &[u8]) -> Image {
        let length = payload.len() as u16;
        self.raw(&length.to_le_bytes()).raw(&kind.to_le_bytes()).raw(payload)
    }

    /// Adds a record whose payload is these 16-bit numbers.
    pub fn numbers(self, kind: u16, numbers: &[u16]) -> Image {
        let payload: Vec<u8> = numbers.iter().flat_map(|number| number.to_le_bytes()).collect();
        self.record(kind, &payload)
    }

    /// Adds kind 1, 8 bytes.
    pub fn counts(self, n: u16, m: u16) -> Image {
        self.numbers(1, &[n, m])
    }

    /// Adds kind 2, 14 bytes.
    pub fn guest(self, guest: u16, tx: u16, rx: u16, pc: u32) -> Image {
        self.numbers(2, &[guest, tx, rx, pc as u16, (pc >> 16) as u16])
    }

    /// Adds kind 3, 8 bytes.
    pub fn owner(self, page: u16, owner: u16) -> Image {
        self.numbers(3, &[page, owner])
    }

    /// Adds kind 4, 8 bytes and 4 more for every word.
    pub fn words(self, address: u32, words: &[u32]) -> Image {
        let mut payload = address.to_le_bytes().to_vec();
        payload.extend(words.iter().flat_map(|word| word.to_le_bytes()));
        self.record(4, &payload)
    }

    /// Adds kind 5, 8 bytes.
    pub fn budget(self, budget: u32) -> Image {
        self.record(5, &budget.to_le_bytes())
    }
}

/// Two guests and m pages: kinds 1 and 2, with mailbox pages 0 to 3. 36 bytes.
pub fn two_guests(m: u16, pc0: u32, pc1: u32) -> Image {
    Image::new().counts(2, m).guest(0, 0, 1, pc0).guest(1, 2, 3, pc1)
}

/// The words of a little program: R0 = the call's number, then hvc.
pub fn call_program(number: u32) -> [u32; 3] {
    [(number & 0xFFFF) << 16 | 0x001, (number >> 16) << 16 | 0x002, 0x00C]
}
