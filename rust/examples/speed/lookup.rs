//! The search beside that of an earlier commit, plain Rust and the searches of others, all by turns, on random texts of 16 MiB: how quickly arrows are found.
//! Only where `tools/speed --beside COMMIT` has linked that commit's archive, its names with `older_` before them.

use crate::clock::{by_turns, ms};
use crate::plain::Plain;
use crate::rivals::{memchr_count, memmem_count};
use crate::Random;
use marks::entries::search;
use marks::table_room;

extern "C" {
    fn older_marks_search(
        word: *const u8,
        word_len: usize,
        text: *const u8,
        text_len: usize,
        tables: *mut u16,
        tables_len: usize,
        finds: *mut u32,
        finds_len: usize,
        count: *mut u64,
        letters: *mut u64,
    ) -> u32;
}

/// How many the earlier search finds, and the letters it reads.
fn older_count(word: &[u8], text: &[u8], tables: &mut [u16]) -> (u64, u64) {
    let (mut count, mut letters) = (0, 0);
    // SAFETY: word, text and tables are whole slices, and no find is listed.
    let refused = unsafe {
        older_marks_search(
            word.as_ptr(),
            word.len(),
            text.as_ptr(),
            text.len(),
            tables.as_mut_ptr(),
            tables.len(),
            std::ptr::null_mut(),
            0,
            &mut count,
            &mut letters,
        )
    };
    assert_eq!(refused, 0);
    (count, letters)
}

const HEAD: &str = "| Alphabet | Word | before, ms | now | plain Rust | memmem | memchr | before / plain | now / plain | now / before | now / memmem | now / memchr |";

pub fn lookup_times() {
    println!("{HEAD}\n|{}", "---|".repeat(12));
    for letters in [2, 4, 20, 256] {
        let text = Random(362436069 + letters).bytes(16 << 20, letters);
        for m in [4, 16, 64, 256, 1024] {
            let word = &text[5_000_000..5_000_000 + m];
            let (mut tables, mut older_tables) = (vec![0; table_room(m)], vec![0; table_room(m)]);
            let mut now = || search(word, &text, &mut tables, &mut []).map(|said| (said.count, said.letters)).expect("within the limits");
            let said = now();
            assert_eq!(older_count(word, &text, &mut older_tables), said);
            assert_eq!(Plain::new(word).count(&text), said);
            assert_eq!(memmem_count(word, &text), said.0);
            let with_memchr = memchr_count(word, &text).map(|count| assert_eq!(count, said.0)).is_some();
            let [before, now, plain, memmem, memchr] = by_turns(
                3.0,
                [
                    &mut || older_count(word, &text, &mut older_tables).0,
                    &mut || now().0,
                    &mut || Plain::new(word).count(&text).0,
                    &mut || memmem_count(word, &text),
                    &mut || memchr_count(word, &text).unwrap_or(0),
                ],
            );
            let times = [Some(before), Some(now), Some(plain), Some(memmem), with_memchr.then_some(memchr)].map(ms).join(" | ");
            let ratios = [before / plain, now / plain, now / before, now / memmem].map(|ratio| format!("{ratio:.2}")).join(" | ");
            let last = if with_memchr { format!("{:.2}", now / memchr) } else { "-".into() };
            println!("| {letters} | {m} | {times} | {ratios} | {last} |");
        }
    }
}
