//! Donate, Lend and Share: opening a transaction by the descriptor in the caller's TX page.

use super::{succeed, Outcome, DENIED, INVALID_PARAMETERS, NO_MEMORY};
use crate::machine::{Deal, Handle, Kind, Machine, PageId, Transaction, DEAL_PAGES, HANDLES, PAGE_WORDS};
use crate::sound::{dealt_by, owned_by};

/// The words of a descriptor before its page bases: its length, then kind and receiver.
const HEADER_WORDS: usize = 2;

/// Donate, Lend or Share by its kind; R1 is the length of the descriptor in words.
pub(super) fn send_pages(machine: &mut Machine, memory: &[u32], r1: u32, kind: Kind) -> Outcome {
    let caller = machine.current;
    let (deal, pages) = read_descriptor(machine, memory, r1, kind).ok_or(INVALID_PARAMETERS)?;
    let transaction = Transaction {
        deal: Some(deal),
        pages,
    };
    if transaction
        .dealt_pages()
        .iter()
        .any(|&page| *machine.page(page) != owned_by(caller))
    {
        return Err(DENIED);
    }
    let handle = lowest_free_handle(machine).ok_or(NO_MEMORY)?;
    for &page in transaction.dealt_pages() {
        *machine.page_mut(page) = dealt_by(&deal);
    }
    *machine.transaction_mut(handle) = transaction;
    succeed(machine);
    machine.guest_mut(caller).registers.set(2, u32::from(handle.0));
    Ok(())
}

/// The deal that the caller's descriptor asks for and its page slots, or `None` if the descriptor is invalid.
fn read_descriptor(machine: &Machine, memory: &[u32], r1: u32, kind: Kind) -> Option<(Deal, [PageId; DEAL_PAGES])> {
    let sender = machine.current;
    let length = r1 as usize;
    if !(HEADER_WORDS + 1..=HEADER_WORDS + DEAL_PAGES).contains(&length) {
        return None;
    }
    let descriptor = &memory[machine.guest(sender).tx.base()..][..length];
    let (header, bases) = descriptor.split_at(HEADER_WORDS);
    if header[0] != r1 || header[1] & 0xFFFF != number_of(kind) {
        return None;
    }
    let receiver = machine.find_guest(header[1] >> 16).filter(|&vm| vm != sender)?;
    let pages = read_bases(machine, bases)?;
    Some((
        Deal {
            sender,
            receiver,
            kind,
            retrieved: false,
            count: bases.len() as u8,
        },
        pages,
    ))
}

/// The number by which a descriptor names a kind.
fn number_of(kind: Kind) -> u32 {
    match kind {
        Kind::Donate => 1,
        Kind::Lend => 2,
        Kind::Share => 3,
    }
}

/// The page slots for one to eight bases, or `None` if one is no page's or they do not strictly ascend.
fn read_bases(machine: &Machine, bases: &[u32]) -> Option<[PageId; DEAL_PAGES]> {
    let mut pages = [PageId(0); DEAL_PAGES];
    for (slot, &base) in pages.iter_mut().zip(bases) {
        if base % PAGE_WORDS as u32 != 0 {
            return None;
        }
        *slot = machine.find_page(base / PAGE_WORDS as u32)?;
    }
    let ascend = bases.windows(2).all(|pair| pair[0] < pair[1]);
    ascend.then_some(pages)
}

/// The free handle with the lowest number, if one is free.
fn lowest_free_handle(machine: &Machine) -> Option<Handle> {
    (0..HANDLES as u8)
        .map(Handle)
        .find(|&handle| machine.transaction(handle).deal.is_none())
}
