//! Fill columns of the library beside the original's `parse` and `get`: one run, by each into four columns of doubles.
//!
//! Both sides open the run, read it to its end, told that the bytes are the last, and write four doubles a record; the library
//! writes two u32 a record more, the stored time in minutes and leftover milliseconds, which the original does not keep. The original
//! keeps the unscaled intensity to itself: where it is timed, the scaled one goes to that column too. Before anything is timed,
//! the four columns of the library are compared with the original's, the unscaled one with what the driver finds in the
//! original's state, and the two others with the original's time.

use std::hint::black_box;
use std::time::Instant;

use crate::driver::{self, Kind};
use crate::parsers::agilent::chemstation::{
    ChemstationDadRecord, ChemstationDadState, ChemstationFidRecord, ChemstationFidState, ChemstationMsRecord,
    ChemstationMsState, ChemstationMwdRecord, ChemstationMwdState,
};
use crate::parsers::agilent::chemstation_new::{
    ChemstationArrayRecord, ChemstationArrayState, ChemstationUvRecord, ChemstationUvState,
};
use crate::parsers::extract_opt;

// As include/chemstation.h declares them.
#[link(name = "chemread", kind = "static")]
extern "C" {
    fn chemstation_open(
        kind: u8,
        bytes: *const u8,
        length: usize,
        last: bool,
        header: *mut usize,
        corrections: *mut f64,
        text_starts: *mut usize,
        text_lengths: *mut usize,
        numbers: *mut f64,
        counts: *mut usize,
        stored_time: *mut u32,
        reading: *mut u8,
    ) -> u8;
    fn chemstation_fill(
        numbers: *mut f64,
        counts: *mut usize,
        stored_time: *mut u32,
        reading: u8,
        bytes: *const u8,
        length: usize,
        last: bool,
        time: *mut f64,
        time_length: usize,
        axis: *mut f64,
        axis_length: usize,
        unscaled: *mut f64,
        unscaled_length: usize,
        scaled: *mut f64,
        scaled_length: usize,
        minutes: *mut u32,
        minutes_length: usize,
        leftover: *mut u32,
        leftover_length: usize,
        given: *mut usize,
    ) -> u8;
}

/// Four columns: time, axis, unscaled, scaled; and the library's two more: minutes, leftover.
struct Columns([Vec<f64>; 4], [Vec<u32>; 2]);

impl Columns {
    fn with_room(rows: usize) -> Columns {
        Columns([(); 4].map(|_| Vec::with_capacity(rows)), [(); 2].map(|_| Vec::with_capacity(rows)))
    }

    fn clear(&mut self) {
        self.0.iter_mut().for_each(Vec::clear);
        self.1.iter_mut().for_each(Vec::clear);
    }

    /// So many rows of zeros.
    fn zero(&mut self, rows: usize) {
        self.clear();
        self.0.iter_mut().for_each(|column| column.resize(rows, 0.0));
        self.1.iter_mut().for_each(|column| column.resize(rows, 0));
    }

    fn push(&mut self, time: f64, axis: f64, unscaled: f64, scaled: f64) {
        let [t, a, u, s] = &mut self.0;
        t.push(time);
        a.push(axis);
        u.push(unscaled);
        s.push(scaled);
    }
}

// ---- the original

/// All records by `extract_opt`, which is `parse` and then `get`, pushed into columns that have room for them.
macro_rules! original {
    ($name:ident, $state:ident, $record:ident, $axis:expr) => {
        fn $name(file: &[u8], out: &mut Columns) {
            let axis: fn(&$record) -> f64 = $axis;
            let mut at = 0;
            let mut state = match extract_opt::<$state>(file, true, &mut at, &mut ()) {
                Ok(Some(state)) => state,
                _ => return,
            };
            while let Ok(Some(r)) = extract_opt::<$record>(file, true, &mut at, &mut state) {
                out.push(r.time, axis(&r), r.intensity, r.intensity);
            }
        }
    };
}

original!(fid, ChemstationFidState, ChemstationFidRecord, |_| 0.0);
original!(ms, ChemstationMsState, ChemstationMsRecord, |r| r.mz);
original!(mwd, ChemstationMwdState, ChemstationMwdRecord, |_| 0.0);
original!(dad, ChemstationDadState, ChemstationDadRecord, |r| r.wavelength);
original!(uv, ChemstationUvState, ChemstationUvRecord, |r| r.wavelength);
original!(array, ChemstationArrayState, ChemstationArrayRecord, |_| 0.0);

fn original(kind: u8, file: &[u8], out: &mut Columns) {
    out.clear();
    match kind {
        1 => fid(file, out),
        2 => ms(file, out),
        3 => mwd(file, out),
        4 => dad(file, out),
        5 => uv(file, out),
        _ => array(file, out),
    }
}

/// The same with the unscaled intensity, as the oracle's logs have it.
fn expected<K: Kind>(file: &[u8], out: &mut Columns) {
    let mut at = 0;
    let mut state = match K::open(file, true, &mut at) {
        Ok(Some(state)) => state,
        _ => return,
    };
    let mut taken = 0;
    while let Ok(Some(point)) = K::next(&file[at..], true, &mut taken, &mut state) {
        let unscaled = K::unscaled(&state, &point, &file[at..at + taken]);
        out.push(point.time, point.axis.unwrap_or(0.0), unscaled, point.scaled);
        at += taken;
        taken = 0;
    }
}

fn expected_of(kind: u8, file: &[u8], out: &mut Columns) {
    match kind {
        1 => expected::<driver::Fid>(file, out),
        2 => expected::<driver::Ms>(file, out),
        3 => expected::<driver::Mwd>(file, out),
        4 => expected::<driver::Dad>(file, out),
        5 => expected::<driver::Uv>(file, out),
        _ => expected::<driver::Array>(file, out),
    }
}

// ---- the library

/// The record count.
fn library(kind: u8, file: &[u8], out: &mut Columns) -> usize {
    let (mut header, mut starts, mut lengths) = ([0; 5], [0; 8], [0; 8]);
    let (mut corrections, mut numbers, mut counts, mut stored, mut reading, mut given) = ([0.0; 4], [0.0; 6], [0; 4], 0, 0, [0; 2]);
    let ([t, a, u, s], [m, l]) = (&mut out.0, &mut out.1);
    // Each pointer is to so many elements as are told beside it, and nothing overlaps.
    unsafe {
        let opened = chemstation_open(
            kind,
            file.as_ptr(),
            file.len(),
            true,
            header.as_mut_ptr(),
            corrections.as_mut_ptr(),
            starts.as_mut_ptr(),
            lengths.as_mut_ptr(),
            numbers.as_mut_ptr(),
            counts.as_mut_ptr(),
            &mut stored,
            &mut reading,
        );
        if opened != 103 {
            return 0;
        }
        let rest = &file[header[1]..];
        chemstation_fill(
            numbers.as_mut_ptr(),
            counts.as_mut_ptr(),
            &mut stored,
            reading,
            rest.as_ptr(),
            rest.len(),
            true,
            t.as_mut_ptr(),
            t.len(),
            a.as_mut_ptr(),
            a.len(),
            u.as_mut_ptr(),
            u.len(),
            s.as_mut_ptr(),
            s.len(),
            m.as_mut_ptr(),
            m.len(),
            l.as_mut_ptr(),
            l.len(),
            given.as_mut_ptr(),
        );
    }
    given[0]
}

// ---- the program

/// The first place at which two columns differ; all NaNs are equal.
fn difference(a: &[f64], b: &[f64]) -> Option<usize> {
    let same = |x: &f64, y: &f64| x.to_bits() == y.to_bits() || (x.is_nan() && y.is_nan());
    (0..a.len().max(b.len())).find(|&i| !matches!((a.get(i), b.get(i)), (Some(x), Some(y)) if same(x, y)))
}

/// The first record whose minutes and leftover are not the original's time; 0 and 0 are due for a kind that stores none.
fn mistimed(kind: u8, times: &[f64], minutes: &[u32], leftover: &[u32]) -> Option<usize> {
    let stores = matches!(kind, 2 | 4 | 5);
    let right = |t: f64, m: u32, l: u32| if stores { l < 60000 && f64::from(m * 60000 + l) / 60000.0 == t } else { m == 0 && l == 0 };
    (0..times.len()).find(|&i| !right(times[i], minutes[i], leftover[i]))
}

/// The record count, where both sides give the same columns.
fn compared(kind: u8, file: &[u8], rows: usize) -> Result<usize, String> {
    let (mut theirs, mut fast, mut ours) = (Columns::with_room(rows), Columns::with_room(rows), Columns::with_room(rows));
    expected_of(kind, file, &mut theirs);
    original(kind, file, &mut fast);
    ours.zero(rows);
    let count = library(kind, file, &mut ours);
    for (i, name) in ["time", "axis", "unscaled", "scaled"].iter().enumerate() {
        if let Some(at) = difference(&theirs.0[i], &ours.0[i][..count]) {
            return Err(format!("the {} of record {} differs", name, at));
        }
        if i != 2 && difference(&theirs.0[i], &fast.0[i]).is_some() {
            return Err(format!("what is timed of the original has another {}", name));
        }
    }
    match mistimed(kind, &theirs.0[0], &ours.1[0], &ours.1[1]) {
        Some(at) => Err(format!("the stored time of record {} differs", at)),
        None => Ok(count),
    }
}

fn seconds(work: impl FnOnce()) -> f64 {
    let begin = Instant::now();
    work();
    begin.elapsed().as_secs_f64()
}

/// The least time of each side, in turns: the original, the library, and the library with columns that are zeroed first.
fn timed(kind: u8, file: &[u8], rows: usize, rounds: usize) -> [f64; 3] {
    let (mut theirs, mut ours) = (Columns::with_room(rows), Columns::with_room(rows));
    ours.zero(rows);
    let mut least = [f64::INFINITY; 3];
    for _ in 0..rounds {
        let turn = [
            seconds(|| original(kind, black_box(file), black_box(&mut theirs))),
            seconds(|| drop(black_box(library(kind, black_box(file), black_box(&mut ours))))),
            seconds(|| {
                ours.zero(rows);
                drop(black_box(library(kind, black_box(file), black_box(&mut ours))));
            }),
        ];
        for (best, now) in least.iter_mut().zip(turn) {
            *best = best.min(now);
        }
    }
    least
}

/// One side once, or neither: for counting instructions.
fn once(side: &str, kind: u8, file: &[u8], rows: usize) {
    let mut columns = Columns::with_room(rows);
    columns.zero(rows);
    match side {
        "original" => original(kind, file, &mut columns),
        "library" => drop(black_box(library(kind, file, &mut columns))),
        _ => {}
    }
    black_box(&columns);
}

const USAGE: &str = "usage: fill CASE ROWS time ROUNDS | fill CASE ROWS once original|library|neither";

pub fn run() -> Result<(), String> {
    let words: Vec<String> = std::env::args().skip(1).collect();
    let [case, rows, what, how] = &words[..] else { return Err(USAGE.into()) };
    let case = std::fs::read(case).map_err(|error| format!("{}: {}", case, error))?;
    let rows: usize = rows.parse().map_err(|_| USAGE)?;
    let (kind, file) = match case.split_first() {
        Some((digit @ b'1'..=b'6', file)) => (digit - b'0', file),
        _ => return Err("the case begins with no kind".into()),
    };
    match (what.as_str(), how.parse::<usize>()) {
        ("time", Ok(rounds)) => {
            let count = compared(kind, file, rows)?;
            let [theirs, ours, zeroed] = timed(kind, file, rows, rounds).map(|s| s * 1e9 / count as f64);
            println!("{} {} {} {}", count, theirs, ours, zeroed);
            Ok(())
        }
        ("once", _) => Ok(once(how, kind, file, rows)),
        _ => Err(USAGE.into()),
    }
}
