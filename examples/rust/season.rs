// A season's log in two batches, from Rust: the same as examples/c/season.c, and prints the same. The two wrappers are all that is unsafe:
// what include/estivolh.h asks of pointers, Rust's slices give; what it asks of the floating-point environment, every Rust program has.

const SECTIONS: usize = 2;
const BOOK_NUMBERS: usize = 34; // sections, 16 wears, 16 bend counts, retired wear
const WEAR: usize = 1;
const BENDS: usize = 17;
const RETIRED: usize = 33;

// Kind (1 bend, 2 splice), section, x, y, method. The splice is not the last entry of its batch.
const BATCHES: [[i64; 10]; 2] = [[1, 0, 2, 3, 1, 1, 1, 5, -1, 1], [2, 0, 0, 0, 0, 1, 0, 5, 0, 2]];

extern "C" {
    fn estivolh_fresh(sections: u64, book: *mut u64, book_length: usize) -> u64;
    fn estivolh_batch(
        book: *mut u64,
        book_length: usize,
        chart: *const u8,
        chart_length: usize,
        entries: *const i64,
        entries_length: usize,
        answers: *mut u64,
        answers_length: usize,
    ) -> u64;
}

#[must_use]
fn fresh(sections: u64, book: &mut [u64]) -> u64 {
    unsafe { estivolh_fresh(sections, book.as_mut_ptr(), book.len()) }
}

#[must_use]
fn batch(book: &mut [u64], chart: &[u8], entries: &[i64], answers: &mut [u64]) -> u64 {
    unsafe {
        estivolh_batch(
            book.as_mut_ptr(),
            book.len(),
            chart.as_ptr(),
            chart.len(),
            entries.as_ptr(),
            entries.len(),
            answers.as_mut_ptr(),
            answers.len(),
        )
    }
}

// The number of a refusal, where there is one.
fn accepted(refusal: u64) -> Result<(), u64> {
    if refusal == 0 {
        Ok(())
    } else {
        Err(refusal)
    }
}

fn season(chart: &[u8]) -> Result<(), u64> {
    let mut book = [0; BOOK_NUMBERS];
    accepted(fresh(SECTIONS as u64, &mut book))?;
    let mut number = 0;
    for entries in &BATCHES {
        let mut answers = [0; 2];
        accepted(batch(&mut book, chart, entries, &mut answers))?;
        for answer in answers {
            number += 1;
            println!("{number:8}{answer:8}");
        }
    }
    for s in 0..SECTIONS {
        println!("{s:8}{:16}{:16}", book[WEAR + s], book[BENDS + s]);
    }
    println!("{:16}", book[RETIRED]);
    Ok(())
}

fn main() {
    let path = std::env::args_os().nth(1).unwrap_or("examples/triangle-a/chart.txt".into());
    let chart = std::fs::read(path).unwrap_or_default(); // an empty chart is refused
    if let Err(refusal) = season(&chart) {
        println!("{refusal:8}");
        std::process::exit(1);
    }
}
