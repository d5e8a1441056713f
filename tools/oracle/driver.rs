//! The driver: the original's answers in the form of document 01's log.
//!
//! Every answer comes from `extract_opt` of the original's State and Record types. What document 01 puts outside the
//! comparison is marked with a line `# REASON` in the place of the closing line.

use std::cell::RefCell;
use std::fmt::{Debug, Write as _};
use std::io::{Read, Write};
use std::panic::{catch_unwind, set_hook, AssertUnwindSafe};
use std::str::FromStr;

use crate::parsers::agilent::chemstation::{
    ChemstationDadRecord, ChemstationDadState, ChemstationFidRecord, ChemstationFidState, ChemstationMsRecord,
    ChemstationMsState, ChemstationMwdRecord, ChemstationMwdState,
};
use crate::parsers::agilent::chemstation_new::{
    ChemstationArrayRecord, ChemstationArrayState, ChemstationUvRecord, ChemstationUvState,
};
use crate::parsers::agilent::metadata::ChemstationMetadata;
use crate::parsers::{extract_opt, Endian, FromSlice};
use crate::EtError;

/// The log program's buffer.
const BUFFER: usize = 32_768;

// Modes

#[derive(Clone, Copy, PartialEq)]
enum Mode {
    /// The log program: calls see at most a buffer, and a full buffer is not told last.
    Log,
    /// Calls see all bytes, told last.
    Whole,
    /// Calls see all bytes, told not last.
    Single,
    /// The description.
    Header,
    /// The run date, which the original keeps as a date.
    Date,
    /// As `Whole` without the unscaled intensity, the scaled one in its place: for timing.
    Public,
}

impl Mode {
    fn named(letter: u8) -> Option<Mode> {
        match letter {
            b'l' => Some(Mode::Log),
            b'w' => Some(Mode::Whole),
            b's' => Some(Mode::Single),
            b'h' => Some(Mode::Header),
            b'd' => Some(Mode::Date),
            b'p' => Some(Mode::Public),
            _ => None,
        }
    }

    /// What a call at `at` sees of the file, and whether it is told last.
    fn seen(self, file: &[u8], at: usize) -> (&[u8], bool) {
        let rest = &file[at..];
        match self {
            Mode::Log if rest.len() >= BUFFER => (&rest[..BUFFER], false),
            Mode::Single => (rest, false),
            _ => (rest, true),
        }
    }
}

// The six kinds

/// A record's public fields.
pub(crate) struct Point {
    pub(crate) time: f64,
    pub(crate) axis: Option<f64>,
    pub(crate) scaled: f64,
}

pub(crate) trait Kind {
    type State: Debug;
    fn open(seen: &[u8], last: bool, taken: &mut usize) -> Result<Option<Self::State>, EtError>;
    fn next(seen: &[u8], last: bool, taken: &mut usize, state: &mut Self::State) -> Result<Option<Point>, EtError>;
    /// The unscaled intensity behind a record of these bytes.
    fn unscaled(state: &Self::State, point: &Point, bytes: &[u8]) -> f64;
    /// Whether document 01 refuses this opening with 10.
    fn too_many_scans(_state: &Self::State) -> bool {
        false
    }
}

macro_rules! kind {
    ($kind:ident, $state:ident, $record:ident, $axis:expr, $unscaled:expr $(, $more:item)*) => {
        pub(crate) struct $kind;

        impl Kind for $kind {
            type State = $state;

            fn open(
                seen: &[u8],
                last: bool,
                taken: &mut usize,
            ) -> Result<Option<$state>, EtError> {
                extract_opt::<$state>(seen, last, taken, &mut ())
            }

            fn next(
                seen: &[u8],
                last: bool,
                taken: &mut usize,
                state: &mut $state,
            ) -> Result<Option<Point>, EtError> {
                let axis: fn(&$record) -> Option<f64> = $axis;
                let record = extract_opt::<$record>(seen, last, taken, state)?;
                Ok(record.map(|r| Point {
                    time: r.time,
                    axis: axis(&r),
                    scaled: r.intensity,
                }))
            }

            fn unscaled(state: &$state, point: &Point, bytes: &[u8]) -> f64 {
                let unscaled: fn(&$state, &Point, &[u8]) -> f64 = $unscaled;
                unscaled(state, point, bytes)
            }

            $($more)*
        }
    };
}

// The state's intensity is private and is read from its Debug form, which prints a double so that it reads back the same.
kind!(
    Fid,
    ChemstationFidState,
    ChemstationFidRecord,
    |_| None,
    |state, _, _| in_front(state, "cur_intensity: ")
);
kind!(
    Ms,
    ChemstationMsState,
    ChemstationMsRecord,
    |r| Some(r.mz),
    |_, point, _| point.scaled
);
kind!(
    Mwd,
    ChemstationMwdState,
    ChemstationMwdRecord,
    |_| None,
    |state, _, _| in_front(state, "cur_intensity: ")
);
kind!(
    Dad,
    ChemstationDadState,
    ChemstationDadRecord,
    |r| Some(r.wavelength),
    |state, _, _| in_front(state, "cur_intensity: ")
);
kind!(
    Uv,
    ChemstationUvState,
    ChemstationUvRecord,
    |r| Some(r.wavelength),
    |state, _, _| behind(state, "cur_intensity: ")
);
// The array's state keeps no intensity: the stored number is read from the record's bytes.
kind!(
    Array,
    ChemstationArrayState,
    ChemstationArrayRecord,
    |_| None,
    |_, _, bytes| stored(bytes),
    fn too_many_scans(state: &ChemstationArrayState) -> bool {
        // 1 + the quotient; a saturated quotient wraps to 0 in a release build.
        let scans: u64 = behind(state, "n_scans_left: ");
        scans == 0 || scans > 1 << 53
    }
);

/// Takes the first characters of a Debug form and stops it there.
struct Front(String);

impl std::fmt::Write for Front {
    fn write_str(&mut self, text: &str) -> std::fmt::Result {
        self.0.push_str(text);
        // More than the name, three doubles and two counts with their names.
        if self.0.len() < 320 {
            Ok(())
        } else {
            Err(std::fmt::Error)
        }
    }
}

/// A number in the Debug form of a state whose metadata comes last: no text can stand before it.
fn in_front<N: FromStr>(state: &dyn Debug, label: &str) -> N {
    let mut front = Front(String::with_capacity(512));
    let _ = write!(front, "{:?}", state);
    number_after(&front.0, front.0.find(label), label)
}

/// A number in the Debug form of a state whose metadata comes first: no text can stand behind it.
fn behind<N: FromStr>(state: &dyn Debug, label: &str) -> N {
    let form = format!("{:?}", state);
    number_after(&form, form.rfind(label), label)
}

fn number_after<N: FromStr>(form: &str, at: Option<usize>, label: &str) -> N {
    let rest = &form[at.expect("the field is there") + label.len()..];
    let end = rest.find(|c| c == ',' || c == ' ').expect("the field ends");
    rest[..end].parse().ok().expect("the field is a number")
}

fn stored(bytes: &[u8]) -> f64 {
    if bytes.len() == 4 {
        f64::from(f32::extract(bytes, &Endian::Little).expect("four bytes"))
    } else {
        f64::extract(bytes, &Endian::Little).expect("eight bytes")
    }
}

// Answers

enum Answer {
    Finished,
    More,
    Refusal(u8),
    /// Outside the comparison, and why.
    Outside(String),
}

/// Document 01's number of an error of the original.
fn answer(error: &EtError, last: bool) -> Answer {
    let text: &str = &error.msg;
    let is = |start: &str, end: &str| text.starts_with(start) && text.ends_with(end);
    let short = if last { Answer::Refusal(14) } else { Answer::More };
    match (error.incomplete, text) {
        (false, "Invalid header length of 0") => Answer::Refusal(2),
        (false, "Header length too short") => Answer::Refusal(3),
        (false, "Header length too long") => Answer::Refusal(4),
        (false, "Invalid Chemstation MS record header") => Answer::Refusal(11),
        (false, "Wavelength range has invalid bounds") => Answer::Refusal(12),
        (false, "Invalid wavelength step") => Answer::Refusal(13),
        (false, _) if is("invalid utf-8 sequence of ", "") => Answer::Refusal(8),
        (false, _) if is("incomplete utf-8 byte sequence ", "") => Answer::Refusal(8),
        // A single last byte: incomplete by its text, though not marked so.
        (false, "FID record was incomplete") => short,
        (true, "Incomplete FID file") => short,
        (true, "Agilent header too short") => short,
        (true, _) if is("Buffer terminated before ", " bytes could be skipped.") => short,
        (true, _) if is("Could not read ", "") => short,
        (true, _) if is("Could not extract a slice of size ", "") => short,
        // No byte to come could cure these.
        (true, _)
            if is(
                "Chemstation ",
                " header needs to be at least 18446744073709551615 bytes long",
            ) =>
        {
            Answer::Outside("5 said as incomplete".into())
        }
        (true, _) if is("Chemstation ", " bytes long") => Answer::Outside("6 said as incomplete".into()),
        (true, _) if is("Invalid ", " length") => Answer::Outside("7 said as incomplete".into()),
        _ => Answer::Outside(format!("an error without a number: {}", text)),
    }
}

thread_local! {
    /// The original's file in which the last panic was.
    static PLACE: RefCell<String> = RefCell::new(String::new());
}

fn keep_panics_quiet() {
    set_hook(Box::new(|info| {
        let file = info.location().map_or("", |at| at.file()).replace('\\', "/");
        let name = file.rsplit("src/parsers/").next().unwrap_or("").to_string();
        PLACE.with(|place| *place.borrow_mut() = name);
    }));
}

// Output

/// The eight hexadecimal digits of a number, worked out side by side.
fn hex_digits(x: u32) -> [u8; 8] {
    let mut x = u64::from(x);
    x = (x | x << 16) & 0x0000_FFFF_0000_FFFF;
    x = (x | x << 8) & 0x00FF_00FF_00FF_00FF;
    x = (x | x << 4) & 0x0F0F_0F0F_0F0F_0F0F;
    let letters = (x + 0x0606_0606_0606_0606) >> 4 & 0x0101_0101_0101_0101;
    // Seven characters stand between 9 and A.
    (x + 0x3030_3030_3030_3030 + letters * 7).to_be_bytes()
}

/// Lines on their way out; with a sink they are passed on as they become many.
struct Out<'a> {
    lines: Vec<u8>,
    sink: Option<&'a mut dyn Write>,
}

impl Out<'_> {
    fn text(&mut self, text: &str) {
        self.lines.extend_from_slice(text.as_bytes());
    }

    fn hex(&mut self, bytes: &[u8]) {
        for b in bytes {
            self.lines.extend_from_slice(&hex_digits(u32::from(*b))[6..]);
        }
    }

    fn double(&mut self, x: f64) {
        if x.is_nan() {
            self.text(" nan");
            return;
        }
        let bits = x.to_bits();
        let mut shown = [b' '; 17];
        shown[1..9].copy_from_slice(&hex_digits((bits >> 32) as u32));
        shown[9..].copy_from_slice(&hex_digits(bits as u32));
        self.lines.extend_from_slice(&shown);
    }

    fn end_line(&mut self) {
        self.lines.push(b'\n');
        if self.lines.len() > BUFFER {
            self.pass_on();
        }
    }

    fn pass_on(&mut self) {
        if let Some(sink) = &mut self.sink {
            // A reader that has gone away ends the program.
            if sink.write_all(&self.lines).is_err() {
                std::process::exit(1);
            }
            self.lines.clear();
        }
    }

    fn close(&mut self, answer: &Answer, count: u64) {
        match answer {
            Answer::Finished => self.text(&format!("e 0 {}", count)),
            Answer::More => self.text(&format!("e m {}", count)),
            Answer::Refusal(n) => self.text(&format!("e {} {}", n, count)),
            Answer::Outside(why) => self.text(&format!("# {}", why)),
        }
        self.end_line();
    }
}

// The log and the description

/// The opening, and each call until an answer that is no record.
fn log<K: Kind>(file: &[u8], mode: Mode, out: &mut Out, count: &mut u64) -> Answer {
    let (seen, last) = mode.seen(file, 0);
    let mut at = 0;
    let mut state = match K::open(seen, last, &mut at) {
        Ok(Some(state)) => state,
        Ok(None) => return Answer::Outside("an opening without a state".into()),
        Err(error) => return answer(&error, last),
    };
    if K::too_many_scans(&state) {
        return Answer::Outside("10".into());
    }
    let header = &file[..at];
    if mode == Mode::Date {
        return date(header, out);
    }
    out.text(&format!("h {} {}", edition(header), at));
    out.end_line();
    if mode == Mode::Header {
        return description(header, out);
    }

    loop {
        let (seen, last) = mode.seen(file, at);
        let mut taken = 0;
        let point = match K::next(seen, last, &mut taken, &mut state) {
            Ok(Some(point)) => point,
            Ok(None) => return Answer::Finished,
            Err(error) => return answer(&error, last),
        };
        let unscaled = if mode == Mode::Public {
            point.scaled
        } else {
            K::unscaled(&state, &point, &seen[..taken])
        };
        out.text("r");
        out.double(point.time);
        match point.axis {
            Some(axis) => out.double(axis),
            None => out.text(" -"),
        }
        out.double(unscaled);
        out.double(point.scaled);
        out.end_line();
        *count += 1;
        at += taken;
    }
}

fn edition(header: &[u8]) -> u32 {
    u32::extract(&header[248..], &Endian::Big).expect("a whole header")
}

fn metadata(header: &[u8]) -> ChemstationMetadata {
    ChemstationMetadata::from_header(header).expect("a header that opened")
}

fn date(header: &[u8], out: &mut Out) -> Answer {
    out.text(&format!("{:?}", metadata(header).run_date));
    out.end_line();
    Answer::Finished
}

fn description(header: &[u8], out: &mut Out) -> Answer {
    let told = metadata(header);
    out.text(&format!("n {} {} {}", told.sequence, told.vial, told.replicate));
    out.end_line();
    out.text("d");
    for x in [
        told.start_time,
        told.end_time,
        told.offset_correction,
        told.mult_correction,
    ]
    .iter()
    {
        out.double(*x);
    }
    out.end_line();
    let date_text = run_date_text(header);
    let texts = [
        &told.sample,
        &told.description,
        &told.operator,
        &told.instrument,
        &told.method,
        &told.signal_name,
        &told.y_units,
        &date_text,
    ];
    for (i, text) in texts.iter().enumerate() {
        out.text(&format!("t {} ", i + 1));
        out.hex(text.as_bytes());
        out.end_line();
    }
    Answer::Finished
}

/// The original keeps the run date as a date. Its text is what the original reads as the sample when the date's field is
/// moved there: both fields have one form and, in old editions, one width.
pub(crate) fn run_date_text(header: &[u8]) -> String {
    let mut moved = header.to_vec();
    if edition(header) <= 102 {
        moved.copy_within(178..178 + 60, 24);
    } else {
        moved.copy_within(2391..2391 + 511, 858);
    }
    metadata(&moved).sample
}

/// One case: a kind digit, then the file.
fn case(input: &[u8], mode: Mode, out: &mut Out) {
    let mut count = 0;
    let answer = catch_unwind(AssertUnwindSafe(|| match input.first() {
        Some(b'1') => log::<Fid>(&input[1..], mode, out, &mut count),
        Some(b'2') => log::<Ms>(&input[1..], mode, out, &mut count),
        Some(b'3') => log::<Mwd>(&input[1..], mode, out, &mut count),
        Some(b'4') => log::<Dad>(&input[1..], mode, out, &mut count),
        Some(b'5') => log::<Uv>(&input[1..], mode, out, &mut count),
        Some(b'6') => log::<Array>(&input[1..], mode, out, &mut count),
        _ => Answer::Refusal(1),
    }));
    let answer = answer
        .unwrap_or_else(|_| Answer::Outside(format!("a panic in {}", PLACE.with(|place| place.borrow().clone()))));
    // A description has no closing line.
    let described = matches!(answer, Answer::Finished) && matches!(mode, Mode::Header | Mode::Date);
    if !described {
        out.close(&answer, count);
    }
    out.pass_on();
}

/// Frames in, frames out: four bytes of length, big-endian, and that many bytes. A frame in is a mode letter and a case.
fn batch(mut frames: &[u8], sink: &mut dyn Write) -> std::io::Result<bool> {
    while frames.len() >= 4 {
        let size = u32::from_be_bytes([frames[0], frames[1], frames[2], frames[3]]) as usize;
        frames = &frames[4..];
        if size == 0 || size > frames.len() {
            return Ok(false);
        }
        let (frame, rest) = frames.split_at(size);
        frames = rest;
        let mode = match Mode::named(frame[0]) {
            Some(mode) => mode,
            None => return Ok(false),
        };
        let mut out = Out {
            lines: Vec::new(),
            sink: None,
        };
        case(&frame[1..], mode, &mut out);
        sink.write_all(&(out.lines.len() as u32).to_be_bytes())?;
        sink.write_all(&out.lines)?;
    }
    sink.flush()?;
    Ok(frames.is_empty())
}

/// The program; returns its exit status.
pub fn run() -> i32 {
    keep_panics_quiet();
    let name = std::env::args().nth(1).unwrap_or_default();
    let mut input = Vec::new();
    if std::io::stdin().lock().read_to_end(&mut input).is_err() {
        return 1;
    }
    let stdout = std::io::stdout();
    let mut sink = std::io::BufWriter::with_capacity(BUFFER, stdout.lock());
    let mode = match name.as_str() {
        "batch" => return if let Ok(true) = batch(&input, &mut sink) { 0 } else { 1 },
        "log" | "whole" | "single" | "header" | "date" | "public" => Mode::named(name.as_bytes()[0]),
        _ => None,
    };
    match mode {
        Some(mode) => {
            case(
                &input,
                mode,
                &mut Out {
                    lines: Vec::new(),
                    sink: Some(&mut sink),
                },
            );
            if sink.flush().is_ok() {
                0
            } else {
                1
            }
        }
        None => {
            eprintln!("usage: oracle log|whole|single|header|date|public|batch < INPUT");
            2
        }
    }
}
