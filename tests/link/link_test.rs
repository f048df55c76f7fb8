//! The library called from Rust. Usage: link_test TABLE SCHEDULE TEXT, the paper's table E, its schedule, and what
//! desk prints for them.

mod hunavosk {
    extern "C" {
        fn hunavosk_desk(
            table: *const u8,
            table_length: usize,
            schedule: *const u8,
            schedule_length: usize,
            log: *mut u8,
            log_length: usize,
            text: *mut u8,
            text_length: usize,
        ) -> usize;
    }

    /// Room for every text with a log of that length.
    pub fn text_room(log_length: usize) -> usize {
        200 + 20 * log_length
    }

    /// The text that is written, or nothing where its buffer is too short.
    pub fn desk<'t>(table: &[u8], schedule: &[u8], log: &mut [u8], text: &'t mut [u8]) -> Option<&'t [u8]> {
        // A slice's pointer is never null, and Rust lets no `&mut` overlap another reference.
        let count = unsafe {
            hunavosk_desk(
                table.as_ptr(),
                table.len(),
                schedule.as_ptr(),
                schedule.len(),
                log.as_mut_ptr(),
                log.len(),
                text.as_mut_ptr(),
                text.len(),
            )
        };
        if count == 0 { None } else { Some(&text[..count]) }
    }
}

use hunavosk::{desk, text_room};

const MARGIN: usize = 64;

/// A buffer of `length` bytes with a margin on either side, no two bytes near each other alike.
fn room(length: usize) -> Vec<u8> {
    (0..MARGIN + length + MARGIN).map(|i| (i % 251) as u8).collect()
}

/// Calls, and compares the text, and every byte of both buffers and their margins.
fn check(table: &[u8], schedule: &[u8], log_length: usize, text_length: usize, expected: Option<&[u8]>, entries: &[u8]) {
    let (mut log, mut text) = (room(log_length), room(text_length));
    let (mut log_then, mut text_then) = (log.clone(), text.clone());
    log_then[MARGIN..MARGIN + entries.len()].copy_from_slice(entries);
    let written = expected.unwrap_or(&[]);
    text_then[MARGIN..MARGIN + written.len()].copy_from_slice(written);
    let got = desk(
        table,
        schedule,
        &mut log[MARGIN..MARGIN + log_length],
        &mut text[MARGIN..MARGIN + text_length],
    );
    assert_eq!(got, expected);
    assert!(log == log_then, "another log");
    assert!(text == text_then, "another text");
}

fn main() {
    let files: Vec<Vec<u8>> = std::env::args().skip(1).map(|path| std::fs::read(&path).expect(&path)).collect();
    let [table, schedule, printed] = files.as_slice() else { panic!("usage: link_test TABLE SCHEDULE TEXT") };
    let full = &b"answer 10 delivered 7 log 0 quiet no\nstate 0 0 0\n"[..];

    // table E, with room that is just enough, and more
    check(table, schedule, 20000, text_room(20000), Some(printed), &[1, 0]);
    check(table, schedule, 2, text_room(2) + 100, Some(printed), &[1, 0]);
    // no log
    check(table, schedule, 0, text_room(0), Some(full), &[]);
    // a text buffer that is too short, by one byte and altogether
    check(table, schedule, 20000, text_room(20000) - 1, None, &[]);
    check(table, schedule, 20000, 0, None, &[]);
    // files that are refused
    check(&[], schedule, 20000, text_room(20000), Some(b"answer 6 at 0\n"), &[]);
    check(&table[..72], schedule, 20000, text_room(20000), Some(b"answer 1 at 66\n"), &[]);
    check(table, &schedule[..3], 20000, text_room(20000), Some(b"answer 1 at 0\n"), &[]);
    println!("link_test.rs: 8 passed, 0 failed");
}
