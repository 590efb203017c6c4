//! The check of a round file in plain Rust, written from docs/ alone: what `checkround` is timed against.
//!
//!     main < FILE
//!     main FILE
//!     main --help

use std::fmt;
use std::io::{self, BufWriter, Read, Write};
use std::marker::PhantomData;
use std::process::ExitCode;

// Refusals

#[derive(Clone, Copy)]
struct Refusal {
    number: u32,
    place: usize,
}

impl fmt::Display for Refusal {
    fn fmt(&self, f: &mut fmt::Formatter) -> fmt::Result {
        let station = match self.number {
            1..=5 => "file",
            6..=9 => "opening",
            10 | 11 => "group",
            12..=16 => "board",
            17 => "source",
            _ => "proof",
        };
        write!(f, "refused {} {} {}", self.number, station, self.place)
    }
}

/// Why a record is refused, before its place is known.
type Number = u32;

// The round file

const MARK: &[u8] = b"MIXR";
const LONGEST_FILE: usize = 65_536;

#[derive(Clone, Copy)]
struct Opening {
    group: u32,
    plan: u32,
    wires: u32,
    servers: u32,
    key: u32,
}

#[derive(Clone, Copy)]
struct Ciphertext {
    alpha: u32,
    beta: u32,
}

struct Message {
    outputs: [Ciphertext; 2],
    commitment: u32,
    response: u32,
    commitments: [u32; 2],
    challenges: [u32; 2],
    responses: [u32; 2],
}

enum Record<'a> {
    Opening(Opening),
    /// The words, as their bytes.
    Draws(&'a [u8]),
    Post(Ciphertext),
    Comparator(Message),
    Close,
    Expel,
}

/// A record's fields, from bit 0 on.
struct Fields<'a> {
    map: u16,
    bytes: &'a [u8],
}

impl<'a> Fields<'a> {
    fn stands(&mut self) -> bool {
        let stands = self.map & 1 == 1;
        self.map >>= 1;
        stands
    }

    fn number(&mut self) -> Result<u32, Number> {
        let (number, rest) = self.bytes.split_first_chunk().ok_or(2u32)?;
        self.bytes = rest;
        Ok(u32::from_be_bytes(*number))
    }

    fn or(&mut self, default: u32) -> Result<u32, Number> {
        if self.stands() { self.number() } else { Ok(default) }
    }

    fn element(&mut self) -> Result<u32, Number> {
        self.or(1)
    }

    fn ciphertext(&mut self) -> Result<Ciphertext, Number> {
        Ok(Ciphertext { alpha: self.element()?, beta: self.element()? })
    }

    fn words(&mut self) -> Result<&'a [u8], Number> {
        if !self.stands() {
            return Ok(&[]);
        }
        let length = usize::try_from(u64::from(self.number()?) * 8).map_err(|_| 2u32)?;
        let (words, rest) = self.bytes.split_at_checked(length).ok_or(2u32)?;
        self.bytes = rest;
        Ok(words)
    }

    fn opening(&mut self) -> Result<Opening, Number> {
        Ok(Opening {
            group: self.or(0)?,
            plan: self.or(1)?,
            wires: self.or(0)?,
            servers: self.or(1)?,
            key: self.element()?,
        })
    }

    fn message(&mut self) -> Result<Message, Number> {
        Ok(Message {
            outputs: [self.ciphertext()?, self.ciphertext()?],
            commitment: self.element()?,
            response: self.or(0)?,
            commitments: [self.element()?, self.element()?],
            challenges: [self.or(0)?, self.or(0)?],
            responses: [self.or(0)?, self.or(0)?],
        })
    }
}

/// The record at the front of bytes, and what is behind it.
fn read_record(bytes: &[u8]) -> Result<(Record<'_>, &[u8]), Number> {
    let (&[kind, high, low], bytes) = bytes.split_first_chunk().ok_or(2u32)?;
    let fields = match kind {
        1 => 5,
        2 => 1,
        3 => 2,
        4 => 12,
        5 | 6 => 0,
        _ => return Err(3),
    };
    let map = u16::from_be_bytes([high, low]);
    if map >> fields != 0 {
        return Err(4);
    }
    let mut fields = Fields { map, bytes };
    let record = match kind {
        1 => Record::Opening(fields.opening()?),
        2 => Record::Draws(fields.words()?),
        3 => Record::Post(fields.ciphertext()?),
        4 => Record::Comparator(fields.message()?),
        5 => Record::Close,
        _ => Record::Expel,
    };
    Ok((record, fields.bytes))
}

/// Reads a file record by record.
struct Reader<'a> {
    length: usize,
    rest: &'a [u8],
}

impl<'a> Reader<'a> {
    fn new(file: &'a [u8]) -> Result<Self, Refusal> {
        let rest = file.strip_prefix(MARK).filter(|_| file.len() <= LONGEST_FILE);
        let rest = rest.ok_or(Refusal { number: 1, place: 0 })?;
        Ok(Reader { length: file.len(), rest })
    }

    fn offset(&self) -> usize {
        self.length - self.rest.len()
    }

    /// The next record and its offset, or none at the file's end.
    fn next(&mut self) -> Result<Option<(Record<'a>, usize)>, Refusal> {
        let place = self.offset();
        if self.rest.is_empty() {
            return Ok(None);
        }
        let (record, rest) = read_record(self.rest).map_err(|number| Refusal { number, place })?;
        self.rest = rest;
        Ok(Some((record, place)))
    }

    fn opening(&mut self) -> Result<(Opening, usize), Refusal> {
        let place = self.offset();
        match self.next()? {
            Some((Record::Opening(opening), place)) => Ok((opening, place)),
            _ => Err(Refusal { number: 5, place }),
        }
    }

    fn draws(&mut self) -> Result<&'a [u8], Refusal> {
        let place = self.offset();
        match self.next()? {
            Some((Record::Draws(words), _)) => Ok(words),
            _ => Err(Refusal { number: 5, place }),
        }
    }
}

// Groups

trait Group {
    const ORDER: u32;
    const GENERATOR: u32;
    const CHALLENGE_BITS: u32;

    fn is_element(code: u32) -> bool;
    fn multiply(a: u32, b: u32) -> u32;

    fn power(mut base: u32, mut exponent: u32) -> u32 {
        let mut power = 1;
        while exponent > 0 {
            if exponent & 1 == 1 {
                power = Self::multiply(power, base);
            }
            base = Self::multiply(base, base);
            exponent >>= 1;
        }
        power
    }

    fn divide(a: u32, b: u32) -> u32 {
        Self::multiply(a, Self::power(b, Self::ORDER - 1))
    }

    fn exponent_of(word: u64) -> u32 {
        (word % u64::from(Self::ORDER)) as u32
    }

    fn challenge_of(word: u64) -> u32 {
        (word % (1 << Self::CHALLENGE_BITS)) as u32
    }
}

/// The residues modulo 23 of order 11.
struct Modulo23;

impl Group for Modulo23 {
    const ORDER: u32 = 11;
    const GENERATOR: u32 = 2;
    const CHALLENGE_BITS: u32 = 3;

    fn is_element(code: u32) -> bool {
        (1..23).contains(&code) && Self::power(code, Self::ORDER) == 1
    }

    fn multiply(a: u32, b: u32) -> u32 {
        a * b % 23
    }
}

/// The polynomials over bits but 0, modulo t^13 + t^4 + t^3 + t + 1.
struct Polynomials;

impl Group for Polynomials {
    const ORDER: u32 = 8191;
    const GENERATOR: u32 = 2;
    const CHALLENGE_BITS: u32 = 12;

    fn is_element(code: u32) -> bool {
        (1..=8191).contains(&code)
    }

    fn multiply(mut a: u32, b: u32) -> u32 {
        let mut product = 0;
        for bit in 0..13 {
            if b >> bit & 1 == 1 {
                product ^= a;
            }
            a <<= 1;
            if a >> 13 == 1 {
                a ^= 0b10_0000_0001_1011;
            }
        }
        product
    }
}

// Plans

type Wires = (usize, usize);

fn chain(wires: usize) -> Vec<Wires> {
    (0..wires).flat_map(|j| (j + 1..wires).map(move |k| (j, k))).collect()
}

/// The butterfly on the places `first`, `first + stride` and on.
fn butterfly(first: usize, stride: usize, places: usize, listing: &mut Vec<Wires>) {
    if places < 2 {
        return;
    }
    let pair = |i: usize| (first + 2 * i * stride, first + (2 * i + 1) * stride);
    listing.extend((0..places / 2).map(pair));
    butterfly(first, 2 * stride, places / 2, listing);
    butterfly(first + stride, 2 * stride, places / 2, listing);
    listing.extend((1..places / 2).map(pair));
}

/// A plan's comparators, or none where it has no such number of wires.
fn comparators(plan: u32, wires: u32) -> Option<Vec<Wires>> {
    if !(2..=64).contains(&wires) {
        return None;
    }
    match plan {
        1 => Some(chain(wires as usize)),
        2 if wires.is_power_of_two() => {
            let mut listing = Vec::new();
            butterfly(0, 1, wires as usize, &mut listing);
            Some(listing)
        }
        _ => None,
    }
}

// The proofs of a comparator

fn multiply<G: Group>(a: Ciphertext, b: Ciphertext) -> Ciphertext {
    Ciphertext { alpha: G::multiply(a.alpha, b.alpha), beta: G::multiply(a.beta, b.beta) }
}

fn folded_key<G: Group>(key: u32, z: u32) -> u32 {
    G::multiply(G::power(key, z), G::GENERATOR)
}

fn folded_quotient<G: Group>(old: Ciphertext, new: Ciphertext, z: u32) -> u32 {
    G::multiply(G::power(G::divide(new.alpha, old.alpha), z), G::divide(new.beta, old.beta))
}

/// Whether a response answers a challenge upon a commitment.
fn accepted<G: Group>(folded_key: u32, folded_quotient: u32, commitment: u32, challenge: u32, response: u32) -> bool {
    G::power(folded_key, response) == G::multiply(commitment, G::power(folded_quotient, challenge))
}

impl Message {
    fn has_elements<G: Group>(&self) -> bool {
        let [first, second] = self.outputs;
        let outputs = [first.alpha, first.beta, second.alpha, second.beta];
        outputs.into_iter().chain([self.commitment]).chain(self.commitments).all(G::is_element)
    }

    fn has_fit_numbers<G: Group>(&self) -> bool {
        self.responses.iter().chain([&self.response]).all(|&s| s < G::ORDER)
            && self.challenges.iter().all(|&c| c < 1 << G::CHALLENGE_BITS)
    }

    fn check<G: Group>(&self, key: u32, inputs: [Ciphertext; 2], draws: Option<&[u64]>) -> Result<(), Number> {
        if !self.has_fit_numbers::<G>() {
            return Err(11);
        }
        let Some(&[product_z, product_c, z, c]) = draws else {
            return Err(17);
        };
        let old = multiply::<G>(inputs[0], inputs[1]);
        let new = multiply::<G>(self.outputs[0], self.outputs[1]);
        let z_of_product = G::exponent_of(product_z);
        let folded = folded_key::<G>(key, z_of_product);
        let quotient = folded_quotient::<G>(old, new, z_of_product);
        if !accepted::<G>(folded, quotient, self.commitment, G::challenge_of(product_c), self.response) {
            return Err(18);
        }
        if self.challenges[0] ^ self.challenges[1] != G::challenge_of(c) {
            return Err(19);
        }
        let z = G::exponent_of(z);
        let folded = folded_key::<G>(key, z);
        for (branch, number) in [20, 21].into_iter().enumerate() {
            let quotient = folded_quotient::<G>(inputs[0], self.outputs[branch], z);
            let (challenge, response) = (self.challenges[branch], self.responses[branch]);
            if !accepted::<G>(folded, quotient, self.commitments[branch], challenge, response) {
                return Err(number);
            }
        }
        Ok(())
    }
}

// The board

enum Line {
    Round(Opening),
    Post(usize, Ciphertext),
    Close,
    Step(usize, usize, Wires),
    Expel(usize),
}

impl fmt::Display for Line {
    fn fmt(&self, f: &mut fmt::Formatter) -> fmt::Result {
        match self {
            Line::Round(opening) => {
                let Opening { group, plan, wires, servers, .. } = opening;
                write!(f, "round {group} {plan} {wires} {servers}")
            }
            Line::Post(wire, Ciphertext { alpha, beta }) => write!(f, "post {wire} {alpha} {beta}"),
            Line::Close => write!(f, "close"),
            Line::Step(server, comparator, (a, b)) => write!(f, "step {server} {comparator} {a} {b}"),
            Line::Expel(server) => write!(f, "expel {server}"),
        }
    }
}

struct Verdict {
    word: &'static str,
    completed: usize,
    servers: usize,
}

impl fmt::Display for Verdict {
    fn fmt(&self, f: &mut fmt::Formatter) -> fmt::Result {
        write!(f, "{} {} {}", self.word, self.completed, self.servers)
    }
}

#[derive(PartialEq)]
enum Stage {
    Gathering,
    Turning,
    Finished,
}

struct Board<G> {
    key: u32,
    servers: usize,
    listing: Vec<Wires>,
    words: Vec<u64>,
    wires: Vec<Ciphertext>,
    start: Vec<Ciphertext>,
    stage: Stage,
    posted: usize,
    completed: usize,
    server: usize,
    next: usize,
    group: PhantomData<G>,
}

impl<G: Group> Board<G> {
    fn new(opening: &Opening, listing: Vec<Wires>, words: Vec<u64>) -> Self {
        let wires = vec![Ciphertext { alpha: 1, beta: 1 }; opening.wires as usize];
        Board {
            key: opening.key,
            servers: opening.servers as usize,
            listing,
            words,
            start: wires.clone(),
            wires,
            stage: Stage::Gathering,
            posted: 0,
            completed: 0,
            server: 0,
            next: 0,
            group: PhantomData,
        }
    }

    fn take(&mut self, record: Record) -> Result<Line, Number> {
        match record {
            Record::Opening(_) | Record::Draws(_) => Err(5),
            Record::Post(quote) => self.post(quote),
            Record::Comparator(message) => self.step(&message),
            Record::Close => self.close(),
            Record::Expel => self.expel(),
        }
    }

    fn expect(&self, stage: Stage) -> Result<(), Number> {
        if self.stage == stage { Ok(()) } else { Err(14) }
    }

    fn post(&mut self, quote: Ciphertext) -> Result<Line, Number> {
        if !G::is_element(quote.alpha) || !G::is_element(quote.beta) {
            return Err(10);
        }
        self.expect(Stage::Gathering)?;
        let wire = self.posted;
        *self.wires.get_mut(wire).ok_or(15u32)? = quote;
        self.posted += 1;
        Ok(Line::Post(wire, quote))
    }

    fn close(&mut self) -> Result<Line, Number> {
        self.expect(Stage::Gathering)?;
        if self.posted < self.wires.len() {
            return Err(16);
        }
        self.start.copy_from_slice(&self.wires);
        self.stage = Stage::Turning;
        self.server = 1;
        Ok(Line::Close)
    }

    fn step(&mut self, message: &Message) -> Result<Line, Number> {
        if !message.has_elements::<G>() {
            return Err(10);
        }
        self.expect(Stage::Turning)?;
        let comparator = self.next;
        let (a, b) = self.listing[comparator];
        let question = 4 * (self.listing.len() * (self.server - 1) + comparator);
        let draws = self.words.get(question..question + 4);
        message.check::<G>(self.key, [self.wires[a], self.wires[b]], draws)?;
        [self.wires[a], self.wires[b]] = message.outputs;
        let line = Line::Step(self.server, comparator, (a, b));
        self.next += 1;
        if self.next == self.listing.len() {
            self.completed += 1;
            self.start.copy_from_slice(&self.wires);
            self.end_turn();
        }
        Ok(line)
    }

    fn expel(&mut self) -> Result<Line, Number> {
        self.expect(Stage::Turning)?;
        let line = Line::Expel(self.server);
        self.wires.copy_from_slice(&self.start);
        self.end_turn();
        Ok(line)
    }

    fn end_turn(&mut self) {
        self.next = 0;
        if self.server == self.servers {
            self.stage = Stage::Finished;
        } else {
            self.server += 1;
        }
    }

    fn verdict(&self) -> Verdict {
        // Three quarters of the servers, to the nearest whole and a half downward.
        let needed = (3 * self.servers + 1) / 4;
        let word = match self.stage {
            Stage::Finished if self.completed >= needed => "stands",
            Stage::Finished => "void",
            _ => "open",
        };
        Verdict { word, completed: self.completed, servers: self.servers }
    }
}

// The check of a file

/// Judges an opening; its plan's comparators.
fn judge(opening: &Opening) -> Result<Vec<Wires>, Number> {
    let is_element = match opening.group {
        1 => Modulo23::is_element,
        2 => Polynomials::is_element,
        _ => return Err(6),
    };
    if !matches!(opening.plan, 1 | 2) {
        return Err(6);
    }
    let listing = comparators(opening.plan, opening.wires).ok_or(7u32)?;
    if !(1..=8).contains(&opening.servers) {
        return Err(8);
    }
    if !is_element(opening.key) {
        return Err(10);
    }
    if opening.key == 1 {
        return Err(9);
    }
    Ok(listing)
}

fn words(tape: &[u8]) -> impl Iterator<Item = u64> + '_ {
    tape.chunks_exact(8).map(|word| u64::from_be_bytes(word.try_into().expect("eight bytes")))
}

fn play<G: Group>(mut board: Board<G>, reader: &mut Reader, lines: &mut Vec<Line>) -> Result<Verdict, Refusal> {
    while let Some((record, place)) = reader.next()? {
        lines.push(board.take(record).map_err(|number| Refusal { number, place })?);
    }
    Ok(board.verdict())
}

fn check_file(file: &[u8], lines: &mut Vec<Line>) -> Result<Verdict, Refusal> {
    let mut reader = Reader::new(file)?;
    let (opening, place) = reader.opening()?;
    let listing = judge(&opening).map_err(|number| Refusal { number, place })?;
    lines.push(Line::Round(opening));
    let (first, second) = (reader.draws()?, reader.draws()?);
    let joint = words(first).zip(words(second)).map(|(a, b)| a ^ b).collect();
    match opening.group {
        1 => play(Board::<Modulo23>::new(&opening, listing, joint), &mut reader, lines),
        _ => play(Board::<Polynomials>::new(&opening, listing, joint), &mut reader, lines),
    }
}

// The program

/// The file's bytes, or one byte more than a round file has at most.
fn read_input(name: Option<&str>) -> io::Result<Vec<u8>> {
    let limit = LONGEST_FILE as u64 + 1;
    let mut file = Vec::new();
    match name {
        Some(name) => std::fs::File::open(name)?.take(limit).read_to_end(&mut file)?,
        None => io::stdin().lock().take(limit).read_to_end(&mut file)?,
    };
    Ok(file)
}

fn print(lines: &[Line], ending: &Result<Verdict, Refusal>) -> io::Result<()> {
    let mut out = BufWriter::new(io::stdout().lock());
    for line in lines {
        writeln!(out, "{line}")?;
    }
    match ending {
        Ok(verdict) => writeln!(out, "{verdict}")?,
        Err(refusal) => writeln!(out, "{refusal}")?,
    }
    out.flush()
}

fn run(name: Option<&str>) -> io::Result<ExitCode> {
    let file = read_input(name)?;
    let mut lines = Vec::new();
    let ending = check_file(&file, &mut lines);
    print(&lines, &ending)?;
    Ok(if ending.is_ok() { ExitCode::SUCCESS } else { ExitCode::FAILURE })
}

fn main() -> ExitCode {
    let name = std::env::args().nth(1);
    if name.as_deref() == Some("--help") {
        println!("checks a round file: main < FILE, or main FILE");
        return ExitCode::SUCCESS;
    }
    run(name.as_deref()).unwrap_or_else(|error| {
        eprintln!("{error}");
        ExitCode::FAILURE
    })
}
