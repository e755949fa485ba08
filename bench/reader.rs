//! Takes or refuses papers from standard input, as `take_papers` does, in plain Rust: what the proved program is measured by.
//!
//! The form is read once into structs. Each paper is gone through once, by three functions that call each other, and each
//! gives back the kinds that take what it has read: bit k of a mask stands for kind k.

use std::env;
use std::fmt;
use std::fs;
use std::io::{self, BufWriter, Read, Write};
use std::process::ExitCode;

/// How many kinds a form has at most, and how many ways each.
const KINDS: usize = 4;
const WAYS: usize = 3;
/// How many numbers a way has in a form's row, and a kind: the count of its ways, and these.
const WAY: usize = 16;
const KIND: usize = 1 + WAYS * WAY;
/// How long a list of a way may be, and how many places a record of one may have.
const LONGEST: u64 = 16;
const PLACES: usize = 4;
/// Every number of a paper or a form is below this.
const LIMIT: u64 = 1 << 32;
/// How deep a paper may be.
const DEEPEST: u32 = 256;
/// How many numbers a paper of the stream may have.
const MOST: usize = 1000;
/// How many bytes are read and written at a time.
const BLOCK: usize = 1 << 16;

type Error = Box<dyn std::error::Error>;
/// A set of kinds.
type Mask = u16;

/// Why something is turned away: a number of a fixed list, and a place.
struct Refusal {
    number: u32,
    place: u64,
}

impl fmt::Display for Refusal {
    fn fmt(&self, f: &mut fmt::Formatter) -> fmt::Result {
        write!(f, "refused {} at {}", self.number, self.place)
    }
}

/// A number from one to another.
struct NumberWay {
    kind: usize,
    from: u64,
    to: u64,
}

/// A list of papers of one kind, at least and at most so many.
struct ListWay {
    kind: usize,
    of: usize,
    least: u64,
    most: u64,
}

/// A record of places, by rising name.
struct RecordWay {
    kind: usize,
    places: Vec<Place>,
}

struct Place {
    name: u64,
    kind: usize,
    must: bool,
}

/// The ways of all kinds, by what they are.
#[derive(Default)]
struct Form {
    kinds: usize,
    numbers: Vec<NumberWay>,
    lists: Vec<ListWay>,
    records: Vec<RecordWay>,
}

impl Form {
    /// The form in a row, or the place of what is wrong with it: the first kind at fault, or 4.
    fn read(row: &[u64]) -> Result<Form, u64> {
        let fits = row.len() >= 1 + KINDS * KIND && (1..=KINDS as u64).contains(&row[0]);
        if !fits {
            return Err(KINDS as u64);
        }
        let mut form = Form {
            kinds: row[0] as usize,
            ..Form::default()
        };
        for kind in 0..form.kinds {
            let start = 1 + KIND * kind;
            form.read_kind(kind, &row[start..start + KIND])
                .ok_or(kind as u64)?;
        }
        Ok(form)
    }

    fn read_kind(&mut self, kind: usize, row: &[u64]) -> Option<()> {
        let count = row[0] as usize;
        if count > WAYS {
            return None;
        }
        for way in row[1..].chunks(WAY).take(count) {
            self.read_way(kind, way)?;
        }
        Some(())
    }

    fn read_way(&mut self, kind: usize, way: &[u64]) -> Option<()> {
        match way {
            [0, from, to, ..] if from.max(to) < &LIMIT => self.numbers.push(NumberWay {
                kind,
                from: *from,
                to: *to,
            }),
            [1, of, least, most, ..] if least.max(most) <= &LONGEST => self.lists.push(ListWay {
                kind,
                of: self.kind_from(*of)?,
                least: *least,
                most: *most,
            }),
            [2, count, _, _, places @ ..] if *count <= PLACES as u64 => {
                let places = self.places_from(*count as usize, places)?;
                self.records.push(RecordWay { kind, places });
            }
            _ => return None,
        }
        Some(())
    }

    fn places_from(&self, count: usize, row: &[u64]) -> Option<Vec<Place>> {
        let mut places: Vec<Place> = Vec::new();
        for place in row.chunks(3).take(count) {
            let (name, mark) = (place[0], place[2]);
            let rises = places.last().is_none_or(|last| last.name < name);
            if name >= LIMIT || mark > 1 || !rises {
                return None;
            }
            places.push(Place {
                name,
                kind: self.kind_from(place[1])?,
                must: mark == 1,
            });
        }
        Some(places)
    }

    /// The kind of this number, if there is one.
    fn kind_from(&self, number: u64) -> Option<usize> {
        (number < self.kinds as u64).then_some(number as usize)
    }
}

impl RecordWay {
    /// Fills the place of this name, from a place on: the place behind it, unless there is none that may be filled so.
    fn fill(&self, from: usize, name: u64, taken: Mask) -> Option<usize> {
        for (index, place) in self.places.iter().enumerate().skip(from) {
            if place.name == name {
                return (taken & bit(place.kind) != 0).then_some(index + 1);
            }
            if place.must {
                return None;
            }
        }
        None
    }

    /// Whether no place from this one on must be filled.
    fn may_end(&self, from: usize) -> bool {
        self.places[from..].iter().all(|place| !place.must)
    }
}

fn bit(kind: usize) -> Mask {
    1 << kind
}

/// Reads one paper from its row, from the front on.
struct Reader<'a> {
    form: &'a Form,
    row: &'a [u64],
    at: usize,
}

impl Reader<'_> {
    /// The kinds that take the paper that the whole row is.
    fn whole(&mut self) -> Result<Mask, Refusal> {
        let taken = self.paper(DEEPEST)?;
        if self.at < self.row.len() {
            return Err(self.no_paper());
        }
        Ok(taken)
    }

    fn paper(&mut self, levels: u32) -> Result<Mask, Refusal> {
        let start = *self.row.get(self.at).ok_or(self.no_paper())?;
        if start > 2 {
            return Err(self.no_paper());
        }
        if levels == 0 {
            return Err(Refusal {
                number: 6,
                place: self.at as u64,
            });
        }
        self.at += 1;
        match start {
            0 => self.number(),
            1 => self.list(levels - 1),
            _ => self.record(levels - 1),
        }
    }

    fn number(&mut self) -> Result<Mask, Refusal> {
        let number = self.next(0)?;
        let mut taken = 0;
        for way in &self.form.numbers {
            if way.from <= number && number <= way.to {
                taken |= bit(way.kind);
            }
        }
        Ok(taken)
    }

    fn list(&mut self, levels: u32) -> Result<Mask, Refusal> {
        let count = self.next(0)?;
        let mut all = Mask::MAX;
        for _ in 0..count {
            all &= self.paper(levels)?;
        }
        let mut taken = 0;
        for way in &self.form.lists {
            if way.least <= count && count <= way.most && all & bit(way.of) != 0 {
                taken |= bit(way.kind);
            }
        }
        Ok(taken)
    }

    fn record(&mut self, levels: u32) -> Result<Mask, Refusal> {
        let count = self.next(0)?;
        // For each way that is a record: the place that it has come to, if it still can take the fields.
        let mut reached = [Some(0); KINDS * WAYS];
        let mut low = 0;
        for _ in 0..count {
            let name = self.next(low)?;
            let inner = self.paper(levels)?;
            for (way, reached) in self.form.records.iter().zip(&mut reached) {
                if let Some(place) = *reached {
                    *reached = way.fill(place, name, inner);
                }
            }
            low = name + 1;
        }
        let mut taken = 0;
        for (way, reached) in self.form.records.iter().zip(&reached) {
            if reached.is_some_and(|place| way.may_end(place)) {
                taken |= bit(way.kind);
            }
        }
        Ok(taken)
    }

    /// The next number, which is at least `low` and below the limit.
    fn next(&mut self, low: u64) -> Result<u64, Refusal> {
        match self.row.get(self.at) {
            Some(&number) if low <= number && number < LIMIT => {
                self.at += 1;
                Ok(number)
            }
            _ => Err(self.no_paper()),
        }
    }

    fn no_paper(&self) -> Refusal {
        Refusal {
            number: 5,
            place: self.at as u64,
        }
    }
}

/// The papers of an input; `bytes[start..end]` is read and not used yet.
struct Papers<R> {
    input: R,
    bytes: Vec<u8>,
    start: usize,
    end: usize,
}

impl<R: Read> Papers<R> {
    fn new(input: R) -> Papers<R> {
        Papers {
            input,
            bytes: vec![0; BLOCK],
            start: 0,
            end: 0,
        }
    }

    /// Reads on until it holds so many bytes, and says whether it does.
    fn fill(&mut self, least: usize) -> io::Result<bool> {
        if self.end - self.start >= least {
            return Ok(true);
        }
        self.bytes.copy_within(self.start..self.end, 0);
        self.end -= self.start;
        self.start = 0;
        while self.end < least {
            match self.input.read(&mut self.bytes[self.end..])? {
                0 => return Ok(false),
                more => self.end += more,
            }
        }
        Ok(true)
    }

    /// Puts the next paper's numbers into the row, and says whether there is one.
    fn next_into(&mut self, row: &mut Vec<u64>) -> Result<bool, Error> {
        if !self.fill(4)? {
            if self.start < self.end {
                return Err("the stream ends inside its length".into());
            }
            return Ok(false);
        }
        let count = number(&self.bytes[self.start..self.start + 4]) as usize;
        if count > MOST {
            return Err(format!("{count} numbers are more than {MOST}").into());
        }
        let size = 4 + 4 * count;
        if !self.fill(size)? {
            return Err("the stream ends inside it".into());
        }
        let numbers = &self.bytes[self.start + 4..self.start + size];
        row.clear();
        row.extend(numbers.chunks_exact(4).map(number));
        self.start += size;
        Ok(true)
    }
}

/// The number of four bytes, the low byte first.
fn number(bytes: &[u8]) -> u64 {
    u32::from_le_bytes([bytes[0], bytes[1], bytes[2], bytes[3]]).into()
}

/// Answers every paper, and says whether the form took them all as this kind.
fn answer_all(
    form: &Form,
    kind: usize,
    input: impl Read,
    out: &mut impl Write,
) -> Result<bool, Error> {
    let mut papers = Papers::new(input);
    let mut row = Vec::with_capacity(MOST);
    let mut all_taken = true;
    for count in 1u64.. {
        if !papers
            .next_into(&mut row)
            .map_err(|error| format!("paper {count}: {error}"))?
        {
            break;
        }
        let mut reader = Reader {
            form,
            row: &row,
            at: 0,
        };
        match reader.whole() {
            Ok(taken) if taken & bit(kind) != 0 => {
                out.write_all(b"taken\n")?;
                continue;
            }
            Ok(_) => out.write_all(b"not taken\n")?,
            Err(refusal) => writeln!(out, "{refusal}")?,
        }
        all_taken = false;
    }
    Ok(all_taken)
}

/// The form's row in a file, four bytes for each number.
fn row_of(path: &str) -> Result<Vec<u64>, Error> {
    let bytes = fs::read(path).map_err(|error| format!("{path}: {error}"))?;
    if bytes.len() % 4 != 0 {
        return Err(format!("{path}: it ends inside a number of four bytes").into());
    }
    Ok(bytes.chunks_exact(4).map(number).collect())
}

/// Whether the exit status is to be 0.
fn run() -> Result<bool, Error> {
    let (options, words): (Vec<String>, Vec<String>) =
        env::args().skip(1).partition(|word| word.starts_with("--"));
    if options.iter().any(|option| option == "--help") {
        println!("reader FORM [K] [--exit-code]: does what take_papers does");
        return Ok(true);
    }
    if let Some(option) = options.iter().find(|option| *option != "--exit-code") {
        return Err(format!("there is no option {option}").into());
    }
    let (path, k) = match words.as_slice() {
        [path] => (path, 0),
        [path, k] => (
            path,
            k.parse::<u64>()
                .map_err(|_| format!("{k} is no number of a kind"))?,
        ),
        _ => return Err("it takes a form and up to one kind".into()),
    };
    let form = match Form::read(&row_of(path)?) {
        Ok(form) if k < form.kinds as u64 => form,
        Ok(_) => {
            println!(
                "{}",
                Refusal {
                    number: 3,
                    place: k
                }
            );
            return Ok(options.is_empty());
        }
        Err(place) => {
            println!("{}", Refusal { number: 1, place });
            return Ok(options.is_empty());
        }
    };
    let mut out = BufWriter::with_capacity(BLOCK, io::stdout().lock());
    let answered = answer_all(&form, k as usize, io::stdin().lock(), &mut out);
    out.flush()?;
    Ok(answered? || options.is_empty())
}

fn main() -> ExitCode {
    match run() {
        Ok(true) => ExitCode::SUCCESS,
        Ok(false) => ExitCode::FAILURE,
        Err(error) => {
            eprintln!("reader: {error}");
            ExitCode::FAILURE
        }
    }
}
