//! `asm` undoes `dis`, whatever the bytes.

mod common;

use common::{example, hex};
use tools::asm::assemble;
use tools::dis::disassemble;

/// A small generator of numbers that look random, the same for the same seed.
struct Random(u64);

impl Random {
    /// The next number, 0 to `below` - 1.
    fn below(&mut self, below: u64) -> u64 {
        self.0 ^= self.0 << 13;
        self.0 ^= self.0 >> 7;
        self.0 ^= self.0 << 17;
        (self.0 >> 11) % below
    }

    /// Any byte.
    fn byte(&mut self) -> u8 {
        self.below(256) as u8
    }

    /// Bytes, fewer than `below`.
    fn bytes(&mut self, below: u64) -> Vec<u8> {
        (0..self.below(below)).map(|_| self.byte()).collect()
    }

    /// A word: often 0, often an instruction or nearly one.
    fn word(&mut self) -> u32 {
        match self.below(4) {
            0 => 0,
            1 => self.below(15) as u32 | (self.below(1 << 24) as u32) << 8,
            2 => self.below(15) as u32 | (self.below(8) as u32) << 8 | (self.below(8) as u32) << 12,
            _ => self.below(1 << 32) as u32,
        }
    }

    /// Words with runs in them.
    fn words(&mut self) -> Vec<u32> {
        let mut words = vec![self.word()];
        for _ in 0..self.below(12) {
            let word = self.word();
            words.extend(std::iter::repeat_n(word, 1 + self.below(7) as usize));
        }
        words
    }

    /// A good image.
    fn image(&mut self) -> Vec<u8> {
        let guests = 2 + self.below(7);
        let pages = 2 * guests + self.below(65 - 2 * guests);
        let mut image = record(1, &[half(guests), half(pages)].concat());
        let mut mailbox = 0;
        for guest in 0..guests {
            let start = (self.below(pages * 1024) as u32).to_le_bytes();
            let numbers = [half(guest), half(mailbox), half(mailbox + 1)].concat();
            image.extend(record(2, &[numbers, start.to_vec()].concat()));
            mailbox += 2;
        }
        for page in mailbox..pages {
            if self.below(3) > 0 {
                image.extend(record(3, &[half(page), half(self.below(guests))].concat()));
            }
        }
        for _ in 0..self.below(5) {
            let words = self.words();
            let address = self.below(pages * 1024 - words.len() as u64) as u32;
            let payload: Vec<u8> = [address]
                .iter()
                .chain(&words)
                .flat_map(|word| word.to_le_bytes())
                .collect();
            image.extend(record(4, &payload));
        }
        image.extend(record(5, &(self.below(1 << 32) as u32).to_le_bytes()));
        image
    }

    /// The bytes with a few changed, cut out or put in.
    fn spoil(&mut self, bytes: &[u8]) -> Vec<u8> {
        let mut bytes = bytes.to_vec();
        for _ in 0..1 + self.below(3) {
            let at = self.below(bytes.len() as u64 + 1) as usize;
            match self.below(4) {
                0 => bytes.truncate(at),
                1 => bytes.insert(at, self.byte()),
                2 if at < bytes.len() => drop(bytes.remove(at)),
                _ if at < bytes.len() => bytes[at] = self.byte(),
                _ => (),
            }
        }
        bytes
    }
}

/// A number of an image.
fn half(number: u64) -> Vec<u8> {
    (number as u16).to_le_bytes().to_vec()
}

/// A record of an image.
fn record(kind: u16, payload: &[u8]) -> Vec<u8> {
    [&(payload.len() as u16).to_le_bytes(), &kind.to_le_bytes(), payload].concat()
}

/// Tests that the text of the bytes makes the bytes again, and that text again.
fn check(bytes: &[u8]) {
    let text = disassemble(bytes);
    let assembly = assemble(&text).unwrap_or_else(|problems| panic!("{bytes:02x?}\n{text}\n{problems:?}"));
    assert_eq!(assembly.image, bytes, "{text}");
    assert_eq!(disassemble(&assembly.image), text);
    let refusals = text
        .lines()
        .filter(|line| line.starts_with("; a loader refuses"))
        .count();
    assert_eq!(refusals, usize::from(reference::judge(bytes).is_err()), "{text}");
}

#[test]
fn random_bytes() {
    let mut random = Random(1);
    for _ in 0..3000 {
        check(&random.bytes(120));
    }
}

#[test]
fn random_records() {
    let mut random = Random(2);
    for _ in 0..3000 {
        let mut bytes = Vec::new();
        for _ in 0..random.below(8) {
            let length = [0, 3, 4, 4, 5, 8, 9, 10, 11, 12, 16][random.below(11) as usize];
            let payload: Vec<u8> = (0..length).map(|_| random.byte()).collect();
            bytes.extend(record(random.below(8) as u16, &payload));
        }
        bytes.extend(random.bytes(6));
        check(&bytes);
    }
}

#[test]
fn good_images() {
    let mut random = Random(3);
    for _ in 0..1000 {
        let image = random.image();
        assert!(reference::judge(&image).is_ok(), "{image:02x?}");
        check(&image);
        assert!(
            !disassemble(&image).contains("record"),
            "all of a good image is readable"
        );
    }
}

#[test]
fn spoilt_images() {
    let mut random = Random(4);
    for _ in 0..3000 {
        let image = random.image();
        let spoilt = random.spoil(&image);
        check(&spoilt);
    }
}

#[test]
fn every_cut_of_the_example() {
    let image = example();
    for end in 0..=image.len() {
        check(&image[..end]);
    }
}

#[test]
fn extremes() {
    let run = |count: usize, word: &str| hex(&word.repeat(count));
    check(&[]);
    check(&record(4, &[hex("ffffffff"), run(5, "00000000")].concat()));
    check(&record(4, &[hex("00000004"), run(1, "0d000000")].concat()));
    check(&record(4, &[hex("fffffffb"), run(3, "0d000000")].concat()));
    check(&record(4, &[hex("00000000"), run(16_382, "0d000000")].concat()));
    check(&record(4, &[0; 65_535]));
    check(&record(65_535, &[0xff; 65_535]));
    check(&hex("ffff0400 00000000"));
    check(&vec![0x5a; 70_000]);
}

/// Words of texts, right and wrong; `|` stands for a new line.
const PARTS: &str =
    "machine guest page at budget record bytes set call word fill descriptor movi br halt guests tx owner \
    start share Run r0 r9 x y 0 1 4294967295 0xff @1 @x @ x+1 x*2 4294967295*4294967295 -1 - + * / // # = : , ; | | | \u{e9} \
    \u{0} 00 x: y: x=";

#[test]
fn no_text_makes_asm_stumble() {
    let parts: Vec<&str> = PARTS.split_ascii_whitespace().collect();
    let mut random = Random(5);
    let mut images = 0;
    for _ in 0..20_000 {
        let count = random.below(14);
        let text: Vec<&str> = (0..count)
            .map(|_| parts[random.below(parts.len() as u64) as usize])
            .collect();
        match assemble(&text.join(" ").replace('|', "\n")) {
            Ok(assembly) => {
                images += 1;
                check(&assembly.image);
                assembly.warnings();
            }
            Err(problems) => assert!(problems
                .iter()
                .all(|problem| problem.line > 0 && !problem.what.is_empty())),
        }
    }
    assert!(images > 500, "some texts are right: {images}");
}
