//! The bench: its example, its lines, its refusals and their order.

mod common;

use std::io;

use common::*;
use reference::*;

/// The example image, byte for byte.
const EXAMPLE: [u8; 84] = [
    0x04, 0x00, 0x01, 0x00, 0x02, 0x00, 0x07, 0x00, // two guests, seven pages
    0x0A, 0x00, 0x02, 0x00, 0x00, 0x00, 0x02, 0x00, 0x03, 0x00, 0x00, 0x00, 0x00, 0x00, // guest 0
    0x0A, 0x00, 0x02, 0x00, 0x01, 0x00, 0x04, 0x00, 0x05, 0x00, 0x00, 0x04, 0x00, 0x00, // guest 1
    0x04, 0x00, 0x03, 0x00, 0x00, 0x00, 0x00, 0x00, // page 0 is guest 0's
    0x04, 0x00, 0x03, 0x00, 0x01, 0x00, 0x01, 0x00, // page 1 is guest 1's
    0x14, 0x00, 0x04, 0x00, 0x00, 0x00, 0x00, 0x00, // words from address 0 on
    0x01, 0x00, 0x6C, 0x00, 0x02, 0x00, 0x00, 0x84, // movi R0, movt R0
    0x0C, 0x00, 0x00, 0x00, 0x0D, 0x00, 0x00, 0x00, // hvc, halt
    0x04, 0x00, 0x05, 0x00, 0x64, 0x00, 0x00, 0x00, // budget 100
];

/// What the bench writes for an image, by the reader and by the slice, which must agree.
fn bench_of(image: &[u8]) -> String {
    let mut output = Vec::new();
    bench(&mut &image[..], &mut output).expect("reading a slice and writing to a vector");
    let text = String::from_utf8(output).expect("the bench writes ASCII");
    assert_eq!(text, bench_text(image));
    text
}

/// A good image of exactly 65,536 bytes that runs for no step: 44 bytes besides the words' record of 65,492.
fn longest() -> Image {
    two_guests(16, 0, 0).words(0, &[0xD; 16_371]).budget(0)
}

#[test]
fn the_example() {
    assert_eq!(bench_of(&EXAMPLE), "3 0 8400006c 84000061 00000000\nend 4 halted\n");
}

#[test]
fn budget_ends_the_run_in_mode_normal() {
    for (budget, text) in [
        (0, "end 0 normal\n"),
        (2, "end 2 normal\n"),
        (3, "3 0 8400006c 84000061 00000000\nend 3 normal\n"),
        (4, "3 0 8400006c 84000061 00000000\nend 4 halted\n"),
    ] {
        let mut image = EXAMPLE;
        image[80] = budget;
        assert_eq!(bench_of(&image), text);
    }
}

#[test]
fn a_fault_ends_the_run() {
    assert_eq!(bench_of(&two_guests(5, 0, 0).budget(9).0), "end 1 fault\n");
    let image = two_guests(5, 4096, 0)
        .owner(4, 0)
        .words(4096, &[0x1_0008, 0x1_0008, 0])
        .budget(9);
    assert_eq!(bench_of(&image.0), "end 3 fault\n");
}

#[test]
fn lines_show_the_callers_registers() {
    // Guest 0 runs guest 1, which sets R2 and yields; guest 0 then makes a call that there is not, and halts.
    let mut zero = vec![0x0001_0101];
    zero.extend(call_program(RUN));
    zero.extend([0x0000_0001, 0x0000_000C, 0x0000_000D]);
    let mut one = vec![0xBEEF_0202];
    one.extend(call_program(YIELD));
    let image = two_guests(6, 4096, 5120).owner(4, 0).owner(5, 1);
    let image = image.words(4096, &zero).words(5120, &one).budget(1000);
    let lines = [
        "4 0 8400006d 8400006d 00000000",
        "8 1 8400006c 84000061 beef0000",
        "10 0 00000000 84000060 ffffffff",
        "end 11 halted",
    ];
    assert_eq!(bench_of(&image.0), lines.join("\n") + "\n");
}

#[test]
fn exactly_65536_bytes_are_taken_and_one_more_is_refused() {
    let image = longest();
    assert_eq!(image.0.len(), 65_536);
    assert_eq!(bench_of(&image.0), "end 0 normal\n");
    assert_eq!(bench_of(&image.raw(&[0]).0), "refused 1\n");
}

#[test]
fn too_long_an_image_is_refused_before_a_broken_one() {
    assert_eq!(bench_of(&[0; 65_537]), "refused 1\n");
    assert_eq!(bench_of(&[0; 65_536]), "refused 4 0\n");
    assert_eq!(bench_of(&[0; 200_000]), "refused 1\n");
}

#[test]
fn a_broken_image_is_refused_with_its_offset() {
    assert_eq!(bench_of(&[]), "refused 4 0\n");
    assert_eq!(bench_of(&two_guests(5, 0, 0).0), "refused 4 36\n");
    let mut image = longest();
    image.0.truncate(65_535);
    assert_eq!(bench_of(&image.0), "refused 4 65528\n");
}

#[test]
fn more_than_16_pages_are_refused_last() {
    assert_eq!(bench_of(&two_guests(16, 0, 0).budget(0).0), "end 0 normal\n");
    for m in [17, 64] {
        assert_eq!(bench_of(&two_guests(m, 0, 0).budget(0).0), "refused 1\n");
        assert_eq!(bench_of(&two_guests(m, 0, 0).0), "refused 4 36\n");
        assert_eq!(bench_of(&two_guests(m, 0, 0).budget(0).raw(&[1]).0), "refused 4 44\n");
    }
    assert_eq!(bench_of(&two_guests(65, 0, 0).budget(0).0), "refused 4 0\n");
}

#[test]
fn an_endless_input_is_refused_without_being_read_to_its_end() {
    let mut output = Vec::new();
    bench(&mut io::repeat(0), &mut output).expect("reading and writing work");
    assert_eq!(output, b"refused 1\n");
}

#[test]
fn failures_of_input_and_output_are_passed_on() {
    /// Neither reads nor writes.
    struct Torn;
    impl io::Read for Torn {
        /// Fails.
        fn read(&mut self, _: &mut [u8]) -> io::Result<usize> {
            Err(io::ErrorKind::ConnectionReset.into())
        }
    }
    impl io::Write for Torn {
        /// Fails.
        fn write(&mut self, _: &[u8]) -> io::Result<usize> {
            Err(io::ErrorKind::BrokenPipe.into())
        }
        /// Has nothing to do.
        fn flush(&mut self) -> io::Result<()> {
            Ok(())
        }
    }
    let read = bench(&mut Torn, &mut Vec::new()).expect_err("the input is torn");
    assert_eq!(read.kind(), io::ErrorKind::ConnectionReset);
    let written = bench(&mut &EXAMPLE[..], &mut Torn).expect_err("the output is torn");
    assert_eq!(written.kind(), io::ErrorKind::BrokenPipe);
}

#[test]
fn a_long_run_of_calls_prints_a_line_for_each() {
    // After one step, hvc and a branch back to it for ever: every even step is a call that there is not.
    let image = two_guests(5, 4096, 0)
        .owner(4, 0)
        .words(4096, &[0x1001_0301, 0x0000_000C, 0x0000_300B]);
    let text = bench_of(&image.budget(100_001).0);
    let lines: Vec<&str> = text.lines().collect();
    assert_eq!(lines.len(), 50_001);
    assert_eq!(lines[0], "2 0 00000000 84000060 ffffffff");
    for (position, line) in lines[..50_000].iter().enumerate().skip(1) {
        assert_eq!(*line, format!("{} 0 84000060 84000060 ffffffff", 2 * (position + 1)));
    }
    assert_eq!(lines[50_000], "end 100001 normal");
}
