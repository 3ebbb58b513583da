//! What several tests need.

/// The bytes of a text of hex digits with blanks anywhere.
pub fn hex(text: &str) -> Vec<u8> {
    let digits: Vec<u32> = text.chars().filter_map(|digit| digit.to_digit(16)).collect();
    assert!(digits.len().is_multiple_of(2), "whole bytes in {text}");
    digits.chunks(2).map(|pair| (pair[0] * 16 + pair[1]) as u8).collect()
}

/// The bytes of the scope document's example image.
pub fn example() -> Vec<u8> {
    hex("04000100 02000700
         0A000200 0000 0200 0300 00000000
         0A000200 0100 0400 0500 00040000
         04000300 00000000  04000300 01000100
         14000400 00000000 01006C00 02000084 0C000000 0D000000
         04000500 64000000")
}
