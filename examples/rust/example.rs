// Reads a pattern from the command line, says whether the two readings can ever cut a line differently and how long a span can be, and cuts the other words both ways.
// With --latin1 the letters of the code page Latin-1 are letters, in [[:alpha:]] and the other named sets.
// Usage: example [--latin1] PATTERN LINE..   Built and run by examples/rust/run. Pattern and lines are bytes, whether they are UTF-8 or not.
use std::env;
use std::io::{self, Write};
use std::os::unix::ffi::OsStringExt;
use std::process::exit;

// The library's version, structs and functions, as include/yindorka.h has them.
const VERSION: u32 = 10900;

// The bytes of the area that the checker needs.
const AREA_SIZE: usize = 1024;

// A table of named sets: entry b has the bits of the sets that hold the byte b.
type Sets = [u8; 256];
const ALPHA: u8 = 128;
const ALNUM: u8 = 32;
const UPPER: u8 = 16;
const LOWER: u8 = 8;
const PUNCT: u8 = 1;

#[repr(C)]
struct Refusal {
    number: usize,
    place: usize,
}

#[repr(C)]
struct RecordSize {
    number: usize,
    place: usize,
    bytes: usize,
}

#[repr(C)]
struct SpanLengths {
    number: usize,
    place: usize,
    least: usize,
    limited: usize,
    greatest: usize,
}

#[repr(C)]
struct Outcome {
    kind: usize,
    first: usize,
    second: usize,
}

extern "C" {
    fn yindorka_version() -> u32;
    fn yindorka_fixed_sets(table: *mut u8);
    fn yindorka_prepare_with_sets(
        own_sets: *const u8,
        own_sets_length: usize,
        pattern: *const u8,
        length: usize,
        masks: *mut u64,
        rows: *mut u8,
        lens: *mut u8,
        sets: *mut u64,
        ends: *mut u8,
        next: *mut u64,
        hows: *mut u8,
    ) -> Refusal;
    fn yindorka_cut(
        line: *const u8,
        length: usize,
        masks: *const u64,
        rows: *const u8,
        lens: *const u8,
        sets: *const u64,
        ends: *const u8,
        next: *const u64,
        hows: *const u8,
        spans: *mut usize,
    ) -> usize;
    fn yindorka_lengths(pattern: *const u8, length: usize) -> SpanLengths;
    fn yindorka_record_bytes(pattern: *const u8, length: usize) -> RecordSize;
    fn yindorka_readable_with_sets(sets: *const u8, sets_length: usize, pattern: *const u8, length: usize, line: *mut u8, line_length: usize) -> Refusal;
    fn yindorka_check_with_sets(
        sets: *const u8,
        sets_length: usize,
        pattern: *const u8,
        length: usize,
        table: *mut u8,
        table_length: usize,
        witness: *mut u8,
        witness_length: usize,
        area: *mut u8,
        area_length: usize,
    ) -> Outcome;
}

// An accepted pattern's tables, which serve any number of lines.
struct Pattern {
    masks: [u64; 256],
    rows: [u8; 4225],
    lens: [u8; 65],
    sets: [u64; 65],
    ends: [u8; 65],
    next: [u64; 257],
    hows: [u8; 10],
}

enum Verdict {
    Alike { count: usize },
    Unlike { count: usize, witness: Vec<u8>, readable: Vec<u8> },
    Refused { number: usize, place: usize },
}

// The named sets of the POSIX locale over ASCII. With them the calls without the ending _with_sets do the same.
fn fixed() -> Sets {
    let mut sets = [0; 256];
    // Safe: the pointer is to as many bytes as the library's signature has.
    unsafe { yindorka_fixed_sets(sets.as_mut_ptr()) };
    sets
}

// The same, and the letters from 0xC0 on; 0xD7 and 0xF7 are signs.
fn latin1() -> Sets {
    let mut sets = fixed();
    for b in 0xC0..=0xFFu8 {
        sets[usize::from(b)] = match b {
            0xD7 | 0xF7 => PUNCT,
            _ => ALPHA | ALNUM | if b < 0xDF { UPPER } else { LOWER },
        };
    }
    sets
}

impl Pattern {
    fn read(sets: &Sets, text: &[u8]) -> Result<Pattern, Refusal> {
        let mut p = Pattern {
            masks: [0; 256],
            rows: [0; 4225],
            lens: [0; 65],
            sets: [0; 65],
            ends: [0; 65],
            next: [0; 257],
            hows: [0; 10],
        };
        // Safe: each pointer is to as many elements as the library's signature has, and the slice's pointer is never null.
        let r = unsafe {
            yindorka_prepare_with_sets(
                sets.as_ptr(),
                sets.len(),
                text.as_ptr(),
                text.len(),
                p.masks.as_mut_ptr(),
                p.rows.as_mut_ptr(),
                p.lens.as_mut_ptr(),
                p.sets.as_mut_ptr(),
                p.ends.as_mut_ptr(),
                p.next.as_mut_ptr(),
                p.hows.as_mut_ptr(),
            )
        };
        if r.number == 0 {
            Ok(p)
        } else {
            Err(r)
        }
    }

    // The start, the greedy end and the POSIX end, or none.
    fn cut(&self, line: &[u8]) -> Option<(usize, usize, usize)> {
        let mut spans = [0usize; 3];
        // Safe as above.
        let found = unsafe {
            yindorka_cut(
                line.as_ptr(),
                line.len(),
                self.masks.as_ptr(),
                self.rows.as_ptr(),
                self.lens.as_ptr(),
                self.sets.as_ptr(),
                self.ends.as_ptr(),
                self.next.as_ptr(),
                self.hows.as_ptr(),
                spans.as_mut_ptr(),
            )
        };
        (found == 1).then_some((spans[0], spans[1], spans[2]))
    }
}

// The line in printable bytes of the same groups, where there are any.
fn readable(sets: &Sets, text: &[u8], line: &[u8]) -> Vec<u8> {
    let mut shown = line.to_vec();
    // Safe as above.
    unsafe { yindorka_readable_with_sets(sets.as_ptr(), sets.len(), text.as_ptr(), text.len(), shown.as_mut_ptr(), shown.len()) };
    shown
}

fn check(sets: &Sets, text: &[u8]) -> Verdict {
    let mut table = vec![0u8; 65536];
    // A witness has fewer bytes than there are records, and the table holds at most 5,041.
    let mut witness = vec![0u8; 5041];
    // For the test that comes first, and settles patterns with a fixed ending without a record.
    let mut area = [0u8; AREA_SIZE];
    // Safe as above.
    let o = unsafe {
        yindorka_check_with_sets(
            sets.as_ptr(),
            sets.len(),
            text.as_ptr(),
            text.len(),
            table.as_mut_ptr(),
            table.len(),
            witness.as_mut_ptr(),
            witness.len(),
            area.as_mut_ptr(),
            area.len(),
        )
    };
    match o.kind {
        0 => Verdict::Alike { count: o.first },
        1 => {
            witness.truncate(o.second);
            Verdict::Unlike {
                count: o.first,
                readable: readable(sets, text, &witness),
                witness,
            }
        }
        _ => Verdict::Refused {
            number: o.first,
            place: o.second,
        },
    }
}

fn show_verdict(out: &mut impl Write, text: &[u8], verdict: Verdict) -> io::Result<()> {
    // Safe as above.
    let bytes = match unsafe { yindorka_record_bytes(text.as_ptr(), text.len()) } {
        RecordSize { number: 0, bytes, .. } => bytes,
        RecordSize { number, place, .. } => return writeln!(out, "refused with {number} at {place}"),
    };
    match verdict {
        Verdict::Alike { count: 0 } => writeln!(out, "alike, without a record: no match extends to a longer one"),
        Verdict::Alike { count } => writeln!(out, "alike, {count} records of {bytes} bytes"),
        Verdict::Unlike { count, witness, readable } => {
            let hex: String = witness.iter().map(|b| format!("{b:02x}")).collect();
            write!(out, "unlike, {count} records of {bytes} bytes, first line cut differently: {hex}, in readable bytes: ")?;
            out.write_all(&readable)?;
            writeln!(out)
        }
        Verdict::Refused { number, place } => writeln!(out, "refused with {number} at {place}"),
    }
}

// How long a span of an accepted pattern can be, whatever its sets are.
fn show_lengths(out: &mut impl Write, text: &[u8]) -> io::Result<()> {
    // Safe as above.
    match unsafe { yindorka_lengths(text.as_ptr(), text.len()) } {
        SpanLengths { number: 0, least, limited: 1, greatest, .. } => writeln!(out, "a span has {least} to {greatest} bytes"),
        SpanLengths { number: 0, least, .. } => writeln!(out, "a span has {least} bytes or more"),
        SpanLengths { number, place, .. } => writeln!(out, "refused with {number} at {place}"),
    }
}

// A cut may go through a character, so what is taken is written as bytes.
fn show_cut(out: &mut impl Write, pattern: &Pattern, line: &[u8]) -> io::Result<()> {
    let text = match pattern.cut(line) {
        None => [line, b": none\n"].concat(),
        Some((start, short, long)) => [line, b": the station takes '", &line[start..short], b"', the hall '", &line[start..long], b"'\n"].concat(),
    };
    out.write_all(&text)
}

// Whether the pattern is one.
fn show_all(sets: &Sets, words: &[Vec<u8>]) -> io::Result<bool> {
    let mut out = io::stdout().lock();
    show_verdict(&mut out, &words[0], check(sets, &words[0]))?;
    let Ok(pattern) = Pattern::read(sets, &words[0]) else {
        return Ok(false);
    };
    show_lengths(&mut out, &words[0])?;
    for line in &words[1..] {
        show_cut(&mut out, &pattern, line)?;
    }
    Ok(true)
}

fn main() {
    let mut words: Vec<Vec<u8>> = env::args_os().skip(1).map(|word| word.into_vec()).collect();
    let own = words.first().is_some_and(|word| word == b"--latin1");
    if own {
        words.remove(0);
    }
    if words.is_empty() {
        eprintln!("usage: example [--latin1] PATTERN LINE..");
        exit(2);
    }
    // Safe: it takes nothing.
    if unsafe { yindorka_version() } != VERSION {
        eprintln!("example: the library is of another version than this file");
        exit(2);
    }
    let sets = if own { latin1() } else { fixed() };
    match show_all(&sets, &words) {
        Ok(true) => (),
        Ok(false) => exit(1),
        Err(e) => {
            eprintln!("example: standard output cannot be written: {e}");
            exit(2);
        }
    }
}
