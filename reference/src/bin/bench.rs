//! Times the calls of `liblevel.a` beside the reference's, by turns in one run.
//!
//!     bench [--seconds S]
//!
//! S is how long each call is timed on each book, 1 unless given. The reference finds paths by
//! Dijkstra with a heap and an early stop, and its sweeps visit every free mark. Prints the best ns per
//! call and the ratio archive / reference for each call and book, and for each call the geometric mean of
//! its ratios and the worst. On three more books the sketch alone is timed, and on three of version 2, with
//! lines of every class, reader, writer and survey.

use reference::archive::Archive;
use reference::trial::call::own_report;
use reference::trial::random::Random;
use reference::trial::shapes::Shape;
use reference::trial::Book;
use reference::*;
use std::hint::black_box;
use std::process::ExitCode;
use std::time::Instant;

/// How often all calls and books are gone through; about how long one turn is, and how many turns
/// a call has at least in each pass.
const PASSES: usize = 10;
const TURN_SECONDS: f64 = 0.0005;
const FEWEST_TURNS: usize = 3;

/// A call in words.
type Named = (Kind, &'static str);

const READ: Named = (Kind::Read, "read");
const WRITE: Named = (Kind::Write, "write");
const SURVEY: Named = (Kind::Survey, "survey");
const SKETCH: Named = (Kind::Sketch, "sketch");

const CALLS: [Named; 11] = [
    READ,
    WRITE,
    SURVEY,
    (Kind::Listing, "listing"),
    (Kind::Listings, "listings"),
    (Kind::NotChecked, "not-checked"),
    SKETCH,
    (Kind::Rerun, "re-run"),
    (Kind::Withdraw, "withdrawal"),
    (Kind::Adjust, "adjustment"),
    (Kind::Rate, "rate"),
];

/// Books that are timed as version 2 too.
const CLASSED: [&str; 3] = ["random 256/512", "512 parallel lines", "doubled ring"];

/// Lines between the pairs by heights of the marks, with noise by the root of the length; mark 1 held.
fn surveyed(random: &mut Random, shape: Shape, low: i64, high: i64) -> Book {
    let heights: Vec<i64> =
        (0..shape.marks).map(|_| random.within(-40_000_000, 40_000_000)).collect();
    let mut lines = vec![];
    for (from, to) in shape.pairs.into_iter().take(MAX_LINES) {
        let length = random.within(low, high);
        let spread = (3000.0 * (length as f64 / 1000.0).sqrt()) as i64;
        let noise = random.within(-spread, spread) + random.within(-spread, spread);
        let difference = heights[to as usize - 1] - heights[from as usize - 1] + noise;
        let difference = difference.clamp(-MAX_DIFFERENCE, MAX_DIFFERENCE);
        lines.extend([from, to, difference, length, 1, NO_CLASS]);
    }
    Book { version: 1, b: shape.marks, t: 60, held: vec![1, heights[0]], lines }
}

fn random_shape(random: &mut Random) -> Shape {
    Shape::tree(random, 256).with_lines(random, 257).mixed(random)
}

/// Two rings of 128 marks, and from each mark of the first two rungs to the second.
fn rings() -> Shape {
    let mut rings = Shape::rings_with_rungs(128, 128);
    rings.pairs.extend((1..=128).map(|mark| (mark, 128 + mark % 128 + 1)));
    rings
}

/// The books on which every call is timed.
fn books(random: &mut Random) -> Vec<(&'static str, Book)> {
    let random_lengths = random_shape(random);
    let equal_lengths = random_shape(random);
    let grid = Shape::grid(16, 16).mixed(random);
    vec![
        ("random 256/512", surveyed(random, random_lengths, MIN_LENGTH, MAX_LENGTH)),
        ("equal lengths 256/512", surveyed(random, equal_lengths, 1000, 1000)),
        ("grid 16x16", surveyed(random, grid, 500, 3000)),
        ("512 parallel lines", surveyed(random, Shape::parallel(512), 1000, 2000)),
        ("dense 33/512", surveyed(random, Shape::dense(33), 500, 3000)),
        ("two rings with rungs", surveyed(random, rings(), 500, 3000)),
        ("doubled ring", surveyed(random, Shape::ring(256).doubled(), 500, 3000)),
    ]
}

/// Books on which the sketch alone is timed: for many merges, many loops and many spurs.
fn sketched_books(random: &mut Random) -> Vec<(&'static str, Book)> {
    let ring = Shape::ring(256).mixed(random);
    let tree = Shape::tree(random, 256).mixed(random);
    vec![
        ("ring of 256 marks", surveyed(random, ring, 500, 3000)),
        ("255 pairs at mark 1", surveyed(random, Shape::star(256).doubled(), 500, 3000)),
        ("tree of 255 lines", surveyed(random, tree, 500, 3000)),
    ]
}

/// A book with all that its calls are lent.
#[derive(Clone)]
struct Desk {
    book: Book,
    file: Vec<u8>,
    report: Vec<i64>,
    heights: Vec<i64>,
    /// Book and report that the corrections work on.
    corrected: Book,
    kept: Vec<i64>,
    held_out: Vec<i64>,
    lines_out: Vec<i64>,
    file_out: Vec<u8>,
    out: Vec<i64>,
    /// Links, spurs, loops and run of the sketch.
    sketched: [Vec<i64>; 4],
    turn: usize,
}

impl Desk {
    fn new(book: Book) -> Self {
        let mut reference = Reference::new();
        let report = own_report(&mut reference, &book);
        let mut heights = vec![0; book.b as usize];
        reference.adjust(book.lent(), &mut heights);
        Desk {
            file: book.file(),
            corrected: book.clone(),
            kept: report.clone(),
            held_out: vec![0; HELD * MAX_HELD],
            lines_out: vec![0; LINE * MAX_LINES],
            file_out: vec![0; MAX_FILE],
            out: vec![0; MAX_LISTED],
            sketched: std::array::from_fn(|_| vec![0; ENTRY * MAX_LINES]),
            turn: 0,
            report,
            heights,
            book,
        }
    }

    fn loops(&self) -> i64 {
        (self.report.len() / ROW) as i64
    }

    /// Makes a call once; gives the numbers of its answer.
    fn call(&mut self, level: &mut impl Level, kind: Kind) -> [i64; 3] {
        let last = self.loops();
        let book = self.book.lent();
        self.turn = (self.turn + 1) % self.book.lines_count();
        let line = self.turn as i64 + 1;
        let written = |a: Written| [a.number, a.place, a.bytes];
        let answer = |a: Answer| [a.number, a.rows, a.pieces];
        let listed = |a: Listed| [a.number, a.place, a.entries];
        match kind {
            Kind::Read => {
                let a = level.read(&self.file, &mut self.held_out, &mut self.lines_out);
                [a.number, a.h, a.n]
            }
            Kind::Write => written(level.write(book, &mut self.file_out)),
            Kind::Survey => answer(level.survey(book, &mut self.out)),
            Kind::Listing => listed(level.listing(book, last, &mut self.out)),
            Kind::Listings => listed(level.listings(book, &mut self.out)),
            Kind::NotChecked => listed(level.not_checked(book, &mut self.out)),
            Kind::Sketch => self.sketch(level),
            Kind::Rerun => {
                let now = self.corrected.lines[LINE * self.turn + 2];
                let new = if now == MAX_DIFFERENCE { now - 1 } else { now + 1 };
                answer(level.rerun(self.corrected.lent_mut(), &mut self.kept, line, new))
            }
            Kind::Withdraw => {
                self.corrected.lines.copy_from_slice(book.lines);
                self.kept.copy_from_slice(&self.report);
                answer(level.withdraw(self.corrected.lent_mut(), &mut self.kept, line))
            }
            Kind::Adjust => {
                let a = level.adjust(book, &mut self.out);
                [a.number, a.place, a.sweeps]
            }
            Kind::Rate => {
                let a = level.rate(book, &self.heights, line);
                [a.number, a.correction, a.rate.to_bits() as i64]
            }
        }
    }

    /// What the calls have filled and changed.
    fn outputs(&self) -> impl PartialEq + '_ {
        (&self.file_out, &self.out, &self.sketched, &self.corrected, &self.kept)
    }

    fn sketch(&mut self, level: &mut impl Level) -> [i64; 3] {
        let [links, spurs, loops, run] = &mut self.sketched;
        let a = level.sketch(self.book.lent(), links, spurs, loops, run);
        [a.links, a.spurs, a.loops]
    }

    /// Seconds that one of so many calls takes.
    fn time(&mut self, level: &mut impl Level, kind: Kind, calls: u64) -> f64 {
        let start = Instant::now();
        for _ in 0..calls {
            black_box(self.call(level, kind));
        }
        start.elapsed().as_secs_f64() / calls as f64
    }
}

/// A call on a book, and the best times of archive and reference so far.
struct Race {
    kind: Kind,
    name: &'static str,
    ours: Desk,
    theirs: Desk,
    archive: f64,
    reference: f64,
}

impl Race {
    fn new(desk: &Desk, kind: Kind, name: &'static str) -> Self {
        let (ours, theirs) = (desk.clone(), desk.clone());
        Race { kind, name, ours, theirs, archive: f64::MAX, reference: f64::MAX }
    }

    fn ratio(&self) -> f64 {
        self.archive / self.reference
    }

    /// Whether both answer the same.
    fn same(&mut self, reference: &mut Reference) -> bool {
        let (ours, theirs) = (&mut self.ours, &mut self.theirs);
        ours.call(&mut Archive, self.kind) == theirs.call(reference, self.kind)
            && ours.outputs() == theirs.outputs()
    }

    /// Times both by turns.
    fn run(&mut self, reference: &mut Reference, seconds: f64) {
        let kind = self.kind;
        let once = self.theirs.time(reference, kind, 1);
        let calls = ((TURN_SECONDS / once.max(1e-8)) as u64).max(1);
        let start = Instant::now();
        let mut turns = 0;
        while turns < FEWEST_TURNS || start.elapsed().as_secs_f64() < seconds {
            self.archive = self.archive.min(self.ours.time(&mut Archive, kind, calls));
            self.reference = self.reference.min(self.theirs.time(reference, kind, calls));
            turns += 1;
        }
    }
}

fn seconds() -> f64 {
    let words: Vec<String> = std::env::args().skip(1).collect();
    match &words[..] {
        [name, value] if name == "--seconds" => value.parse().unwrap_or(1.0),
        _ => 1.0,
    }
}

fn print_races(races: &[Race]) {
    for race in races {
        let (ours, theirs) = (race.archive * 1e9, race.reference * 1e9);
        let (name, ratio) = (race.name, race.ratio());
        println!("  {name:12} archive {ours:12.0}   reference {theirs:12.0}   ratio {ratio:6.2}");
    }
}

/// For each call the geometric mean of its ratios, and the worst with its book.
fn print_means(books: &[(String, Vec<Race>)]) {
    println!("{:12} mean of ratios   worst", "");
    for (kind, name) in CALLS {
        let of_kind = |races: &[Race]| races.iter().find(|race| race.kind == kind).map(Race::ratio);
        let ratios: Vec<(f64, &str)> =
            books.iter().filter_map(|(book, races)| Some((of_kind(races)?, &book[..]))).collect();
        let logs: f64 = ratios.iter().map(|(ratio, _)| ratio.ln()).sum();
        let mean = (logs / ratios.len() as f64).exp();
        if let Some((worst, book)) = ratios.iter().max_by(|x, y| x.0.total_cmp(&y.0)) {
            println!("{name:12} {mean:14.2}  {worst:6.2}  {book}");
        }
    }
}

/// Every call on the books for all, and some calls on those for them alone.
fn every_race() -> Vec<(String, Vec<Race>)> {
    let random = &mut Random::new(1);
    let mut races = vec![];
    for (name, book) in books(random) {
        let class = |line: usize| (line % TOLERANCES.len()) as i64;
        let version_2 = CLASSED.contains(&name).then(|| book.clone().classed(class));
        races.push((name.to_string(), races_of(book, &CALLS)));
        if let Some(book) = version_2 {
            races.push((format!("{name}, version 2"), races_of(book, &[READ, WRITE, SURVEY])));
        }
    }
    for (name, book) in sketched_books(random) {
        races.push((name.to_string(), races_of(book, &[SKETCH])));
    }
    races
}

fn races_of(book: Book, calls: &[Named]) -> Vec<Race> {
    let desk = Desk::new(book);
    calls.iter().map(|&(kind, name)| Race::new(&desk, kind, name)).collect()
}

fn main() -> ExitCode {
    let seconds = seconds();
    let mut reference = Reference::new();
    let mut races = every_race();
    for (book, of_book) in &mut races {
        for race in of_book {
            if !race.same(&mut reference) {
                println!("{book}: {} DIFFERS", race.name);
                return ExitCode::FAILURE;
            }
        }
    }
    // Several passes over all, so that what disturbs one for a while does not decide.
    for _ in 0..PASSES {
        for race in races.iter_mut().flat_map(|(_, of_book)| of_book) {
            race.run(&mut reference, seconds / PASSES as f64);
        }
    }
    println!("ns per call, the best of all turns");
    for (book, of_book) in &races {
        let desk = &of_book[0].ours;
        let (marks, lines) = (desk.book.b, desk.book.lines_count());
        println!("{book}: {marks} marks, {lines} lines, {} loops", desk.loops());
        print_races(of_book);
    }
    print_means(&races);
    ExitCode::SUCCESS
}
