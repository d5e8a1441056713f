//! The eight texts of many headers: by the library, one by one and all at once, beside the original's parse of the same headers.
//!
//! The original reads the size word and then the whole header: the texts, which it makes Strings of and which are dropped again
//! in its time, and the numbers. Of the run date it keeps no text but a date, if the text has one of four forms; that too is in its
//! time. The library writes each text into memory that is there.
//!
//! Before anything is timed, all texts of all headers are compared. The original's eighth is what it reads where the date's
//! field is moved to the sample's place (`driver::run_date_text`); the date itself has nothing beside it in the library. The counts of
//! replaced letters have nothing beside them in the original.
//!
//! The feature `texts` is for an archive that has chemstation_texts; without it there is no side `all`.

use std::hint::black_box;
use std::time::Instant;

use crate::driver;
use crate::parsers::agilent::metadata::ChemstationMetadata;
use crate::parsers::agilent::read_agilent_header;
use crate::EtError;

// As include/chemstation.h declares them. An archive from before replaced letters were counted has the same functions without the last
// pointer; in the calls of x86-64 one argument more is harmless, and the numbers that it points to stay as they were.
#[link(name = "chemread", kind = "static")]
extern "C" {
    fn chemstation_text(
        kind: u8,
        number: u8,
        bytes: *const u8,
        length: usize,
        text: *mut u8,
        room: usize,
        text_length: *mut usize,
        replaced: *mut usize,
    ) -> u8;
    #[cfg(feature = "texts")]
    fn chemstation_texts(
        kind: u8,
        bytes: *const u8,
        length: usize,
        texts: *mut u8,
        room: usize,
        starts: *mut usize,
        lengths: *mut usize,
        replaced: *mut usize,
    ) -> u8;
}

const GIVEN: u8 = 103;
/// Enough for any text.
const ROOM: usize = 1024;

/// What is lent to the library.
struct Lent {
    // Enough for any eight.
    texts: [u8; 6120],
    starts: [usize; 8],
    lengths: [usize; 8],
    replaced: [usize; 8],
}

impl Lent {
    fn new() -> Lent {
        Lent { texts: [0; 6120], starts: [0; 8], lengths: [0; 8], replaced: [0; 8] }
    }
}

// ---- the sides

fn described(kind: u8, header: &[u8]) -> Result<ChemstationMetadata, EtError> {
    let size = read_agilent_header(header, kind == 2)?;
    ChemstationMetadata::from_header(&header[..size])
}

/// The answer; the text stands at the start of the lent texts, its length and its count in the places of its number.
fn fetched(kind: u8, number: u8, header: &[u8], lent: &mut Lent) -> u8 {
    let at = usize::from(number) - 1;
    let (texts, length, replaced) = (lent.texts.as_mut_ptr(), &mut lent.lengths[at], &mut lent.replaced[at]);
    // The lent texts are longer than the room, and nothing overlaps.
    unsafe { chemstation_text(kind, number, header.as_ptr(), header.len(), texts, ROOM, length, replaced) }
}

#[cfg(feature = "texts")]
fn all_fetched(kind: u8, header: &[u8], lent: &mut Lent) -> u8 {
    let Lent { texts, starts, lengths, replaced } = lent;
    // Each pointer is to so many elements as are told beside it or in the header file, and nothing overlaps.
    unsafe {
        chemstation_texts(
            kind,
            header.as_ptr(),
            header.len(),
            texts.as_mut_ptr(),
            texts.len(),
            starts.as_mut_ptr(),
            lengths.as_mut_ptr(),
            replaced.as_mut_ptr(),
        )
    }
}

fn original(kind: u8, header: &[u8], _: &mut Lent) {
    drop(black_box(described(kind, header)));
}

fn fetch(kind: u8, header: &[u8], lent: &mut Lent) {
    for number in 1..=8 {
        black_box(fetched(kind, number, header, lent));
        black_box(&mut *lent);
    }
}

#[cfg(feature = "texts")]
fn all(kind: u8, header: &[u8], lent: &mut Lent) {
    black_box(all_fetched(kind, header, lent));
    black_box(lent);
}

type Side = fn(u8, &[u8], &mut Lent);

const SIDES: &[(&str, Side)] = &[
    ("original", original),
    ("fetch", fetch),
    #[cfg(feature = "texts")]
    ("all", all),
];

// ---- the comparison

/// The original's eight texts, in the order of their numbers.
fn expected(kind: u8, header: &[u8]) -> Result<[String; 8], String> {
    let told = described(kind, header).map_err(|error| format!("the original refuses it: {}", error.msg))?;
    let date = driver::run_date_text(header);
    Ok([
        told.sample,
        told.description,
        told.operator,
        told.instrument,
        told.method,
        told.signal_name,
        told.y_units,
        date,
    ])
}

fn same_one_by_one(kind: u8, header: &[u8], texts: &[String; 8]) -> bool {
    let mut lent = Lent::new();
    (1..=8).zip(texts).all(|(number, text)| {
        let answer = fetched(kind, number, header, &mut lent);
        answer == GIVEN && text.as_bytes() == &lent.texts[..lent.lengths[usize::from(number) - 1]]
    })
}

#[cfg(feature = "texts")]
fn same_at_once(kind: u8, header: &[u8], texts: &[String; 8]) -> bool {
    let mut lent = Lent::new();
    let answer = all_fetched(kind, header, &mut lent);
    let mut due = 0;
    // One behind the other: each starts where the one before it ends, an empty one too.
    answer == GIVEN
        && texts.iter().enumerate().all(|(i, text)| {
            let start = lent.starts[i];
            let placed = start == due;
            due += text.len();
            placed && text.as_bytes() == &lent.texts[start..start + lent.lengths[i]]
        })
}

#[cfg(not(feature = "texts"))]
fn same_at_once(_: u8, _: &[u8], _: &[String; 8]) -> bool {
    true
}

/// The bytes of all texts, where all sides give the same.
fn compared(kind: u8, headers: &[&[u8]]) -> Result<usize, String> {
    let mut bytes = 0;
    for (i, header) in headers.iter().enumerate() {
        let texts = expected(kind, header).map_err(|error| format!("header {}: {}", i, error))?;
        if !same_one_by_one(kind, header, &texts) {
            return Err(format!("header {}: a text that is fetched alone differs", i));
        }
        if !same_at_once(kind, header, &texts) {
            return Err(format!("header {}: the texts that are fetched at once differ", i));
        }
        bytes += texts.iter().map(String::len).sum::<usize>();
    }
    Ok(bytes)
}

// ---- the program

fn over(side: Side, kind: u8, headers: &[&[u8]], lent: &mut Lent) {
    for header in headers {
        side(kind, black_box(header), lent);
    }
}

/// The least time of each side over all headers, in seconds; the sides take turns.
fn timed(kind: u8, headers: &[&[u8]], rounds: usize) -> Vec<f64> {
    let mut lent = Lent::new();
    let mut least = vec![f64::INFINITY; SIDES.len()];
    for _ in 0..rounds {
        for (best, (_, side)) in least.iter_mut().zip(SIDES) {
            let begin = Instant::now();
            over(*side, kind, headers, &mut lent);
            *best = best.min(begin.elapsed().as_secs_f64());
        }
    }
    least
}

/// One side once, or neither: for counting instructions.
fn once(name: &str, kind: u8, headers: &[&[u8]]) {
    let mut lent = Lent::new();
    if let Some((_, side)) = SIDES.iter().find(|(known, _)| *known == name) {
        over(*side, kind, headers, &mut lent);
    }
    black_box(&lent);
}

const USAGE: &str = "usage: fetch HEADERS KIND SIZE time ROUNDS | fetch HEADERS KIND SIZE once original|fetch|all|neither";

/// HEADERS is a file of headers, each of SIZE bytes. `time` prints the bytes of all texts and then the ns a header of each side.
pub fn run() -> Result<(), String> {
    let words: Vec<String> = std::env::args().skip(1).collect();
    let [file, kind, size, what, how] = &words[..] else { return Err(USAGE.into()) };
    let bytes = std::fs::read(file).map_err(|error| format!("{}: {}", file, error))?;
    let (kind, size): (u8, usize) = (kind.parse().map_err(|_| USAGE)?, size.parse().map_err(|_| USAGE)?);
    if size == 0 || bytes.is_empty() || bytes.len() % size != 0 {
        return Err(format!("{}: not headers of {} bytes", file, size));
    }
    let headers: Vec<&[u8]> = bytes.chunks(size).collect();
    match (what.as_str(), how.parse::<usize>()) {
        ("time", Ok(rounds)) => {
            print!("{}", compared(kind, &headers)?);
            timed(kind, &headers, rounds).iter().for_each(|s| print!(" {}", s * 1e9 / headers.len() as f64));
            println!();
            Ok(())
        }
        ("once", _) => Ok(once(how, kind, &headers)),
        _ => Err(USAGE.into()),
    }
}
