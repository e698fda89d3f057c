//! The yardstick for `zkw check`: the machine's 266 lines over a table file of format 2, in plain Rust on one
//! thread, written apart from the proved program from docs/CONSTRAINTS.md, WITNESS.md, MACHINE.md and TABLES.md.
//! Each instance is read and checked row by row, each line compiled; the lists of `is` lines are sorted.
//! It trusts its ELF file, and expects a machine that stores low bytes first.
//!
//! Usage: plain_check ELF INPUT TABLES. Build: rustc --edition 2021 -O plain_check.rs
use std::fs::File;
use std::io::Read;
use std::ops::{Add, Mul, Sub};

include!("goldilocks.rs");
#[path = "plain_check/constants.rs"]
mod constants;
#[path = "plain_check/lines.rs"]
mod lines;
use constants::{decode_image, Image};

// ---------------------------------------------------------------- the field

/// A number modulo P.
#[derive(Clone, Copy, PartialEq, Eq, PartialOrd, Ord, Debug, Default)]
pub struct F(u64);

const ZERO: F = F(0);
const ONE: F = F(1);

impl Add for F {
    type Output = F;
    #[inline(always)]
    fn add(self, b: F) -> F {
        let (sum, carry) = self.0.overflowing_add(b.0);
        let (less, borrow) = sum.overflowing_sub(P);
        F(if carry || !borrow { less } else { sum })
    }
}

impl Sub for F {
    type Output = F;
    #[inline(always)]
    fn sub(self, b: F) -> F {
        let (difference, borrow) = self.0.overflowing_sub(b.0);
        F(if borrow { difference.wrapping_add(P) } else { difference })
    }
}

impl Mul for F {
    type Output = F;
    #[inline(always)]
    fn mul(self, b: F) -> F {
        F(reduce(self.0 as u128 * b.0 as u128))
    }
}

/// The sum of numbers times the powers of a base.
#[inline(always)]
pub fn joined(base: u64, digits: &[F]) -> F {
    digits.iter().rev().fold(ZERO, |sum, &digit| sum * F(base) + digit)
}

#[inline(always)]
pub fn total(terms: &[F]) -> F {
    terms.iter().fold(ZERO, |sum, &term| sum + term)
}

// ---------------------------------------------------------------- the first broken line

pub enum Place {
    Row(usize, usize),
    Tuple(Vec<F>, usize, usize),
}

/// The least broken line so far. Rows are looked at in order, so the first place of a line is its least.
#[derive(Default)]
pub struct First(Option<(u32, Place)>);

impl First {
    #[cold]
    fn note(&mut self, line: u32, place: Place) {
        if self.0.as_ref().map_or(true, |(least, _)| line < *least) {
            self.0 = Some((line, place));
        }
    }
}

/// A row under the check: tells which of its lines are broken.
pub struct At<'a> {
    first: &'a mut First,
    pub instance: usize,
    pub row: usize,
}

impl At<'_> {
    #[inline(always)]
    pub fn holds(&mut self, line: u32, whether: bool) {
        if !whether {
            self.first.note(line, Place::Row(self.instance, self.row));
        }
    }

    #[inline(always)]
    pub fn zero(&mut self, line: u32, value: F) {
        self.holds(line, value == ZERO);
    }

    #[inline(always)]
    pub fn bit(&mut self, line: u32, value: F) {
        self.holds(line, value.0 < 2);
    }

    #[inline(always)]
    pub fn short(&mut self, line: u32, value: F) {
        self.holds(line, value.0 < 1 << 16);
    }

    /// Bits, or numbers of 16 bits, on lines one after another.
    #[inline(always)]
    pub fn bits(&mut self, line: u32, values: &[F]) {
        (line..).zip(values).for_each(|(line, &value)| self.bit(line, value));
    }

    #[inline(always)]
    pub fn shorts(&mut self, line: u32, values: &[F]) {
        (line..).zip(values).for_each(|(line, &value)| self.short(line, value));
    }
}

// ---------------------------------------------------------------- lists of tuples

/// The two sides of an `is` line.
pub struct Bus<const W: usize> {
    line: u32,
    pub left: Vec<[F; W]>,
    pub right: Vec<[F; W]>,
}

impl<const W: usize> Bus<W> {
    fn new(line: u32) -> Self {
        Bus { line, left: Vec::new(), right: Vec::new() }
    }

    /// The least tuple whose counts differ.
    fn settle(mut self, first: &mut First) {
        self.left.sort_unstable();
        self.right.sort_unstable();
        let (a, b) = (&self.left, &self.right);
        let Some(k) = (0..a.len().max(b.len())).find(|&k| a.get(k) != b.get(k)) else { return };
        let least = *a.get(k).into_iter().chain(b.get(k)).min().unwrap();
        let count = |side: &[[F; W]]| side.partition_point(|t| *t <= least) - side.partition_point(|t| *t < least);
        first.note(self.line, Place::Tuple(least.to_vec(), count(a), count(b)));
    }
}

pub struct Buses {
    /// Lines 7 and 28: from each instance to the next.
    pub steps: Bus<3>,
    pub rows: Bus<6>,
    /// Lines 18, 19, 20.
    pub operations: Bus<8>,
    pub doublewords: Bus<8>,
    pub accesses: Bus<5>,
}

// ---------------------------------------------------------------- the table file

pub const MAIN: usize = 0;
pub const OUT: usize = 6;
const COLUMNS: [usize; 7] = [37, 15, 57, 30, 79, 38, 2];
const ROWS: [usize; 7] = [4096, 8192, 4096, 1024, 1024, 2048, 64];
const MOST: [usize; 7] = [1 << 20, 1 << 22, 1 << 20, 1 << 22, 1 << 22, 1 << 21, 1];
/// Columns stand this far apart beyond their length, so that they don't fall on one set of the cache.
const GAP: usize = 8;

struct Refusal(&'static str, u64);

struct Source {
    file: File,
    at: u64,
    length: u64,
}

impl Source {
    fn fill(&mut self, into: &mut [u8]) -> Result<(), Refusal> {
        if self.length - self.at < into.len() as u64 {
            return Err(Refusal("Short", self.length));
        }
        self.file.read_exact(into).unwrap();
        self.at += into.len() as u64;
        Ok(())
    }

    fn number(&mut self) -> Result<usize, Refusal> {
        let mut bytes = [0; 4];
        self.fill(&mut bytes)?;
        Ok(u32::from_le_bytes(bytes) as usize)
    }

    fn exactly(&mut self, wanted: usize, kind: &'static str, at: u64) -> Result<(), Refusal> {
        if self.number()? == wanted { Ok(()) } else { Err(Refusal(kind, at)) }
    }

    /// A column, each value below p.
    fn column(&mut self, into: &mut [F]) -> Result<(), Refusal> {
        let start = self.at;
        // F is one u64, and all bits are a u64
        let bytes = unsafe { std::slice::from_raw_parts_mut(into.as_mut_ptr().cast::<u8>(), 8 * into.len()) };
        let left = (self.length - self.at).min(bytes.len() as u64) as usize;
        self.fill(&mut bytes[..left])?;
        if into[..left / 8].iter().fold(false, |bad, value| bad | (value.0 >= P)) {
            let k = into.iter().position(|value| value.0 >= P).unwrap();
            return Err(Refusal("NotCanonical", start + 8 * k as u64));
        }
        if left < 8 * into.len() { Err(Refusal("Short", self.length)) } else { Ok(()) }
    }
}

/// The values of an instance, a column after another.
pub struct Block {
    values: Vec<F>,
    pub rows: usize,
    pub instance: usize,
    pub instances: usize,
}

impl Block {
    /// A row of N columns.
    #[inline(always)]
    pub fn row<const N: usize>(&self, row: usize) -> [F; N] {
        let (values, stride) = (&self.values[row..], self.rows + GAP);
        std::array::from_fn(|k| values[k * stride])
    }

    pub fn at<'a>(&self, first: &'a mut First, row: usize) -> At<'a> {
        At { first, instance: self.instance, row }
    }
}

struct Check {
    first: First,
    buses: Buses,
    published: Vec<[F; 2]>,
}

fn counts(source: &mut Source) -> Result<([usize; 7], [usize; 7]), Refusal> {
    let mut magic = [0; 4];
    source.fill(&mut magic)?;
    if magic != *b"ZKWT" {
        return Err(Refusal("BadMagic", 0));
    }
    source.exactly(2, "BadVersion", 4)?;
    let mut rows = ROWS;
    let mut most = MOST;
    match source.number()? {
        1 => {}
        2 => (rows[MAIN], most[MAIN]) = (16384, 1 << 18),
        _ => return Err(Refusal("BadProfile", 8)),
    }
    source.exactly(7, "BadAir", 12)?;
    let mut counts = [0; 7];
    for air in 0..7 {
        let at = source.at;
        counts[air] = source.number()?;
        if air == MAIN && counts[air] == 0 {
            return Err(Refusal("NoMain", at));
        }
        if air == OUT && counts[air] != 1 {
            return Err(Refusal("NotOneOut", at));
        }
        if counts[air] > most[air] {
            return Err(Refusal("TooMany", at));
        }
    }
    Ok((counts, rows))
}

fn head(source: &mut Source, air: usize, number: usize, rows: usize) -> Result<(), Refusal> {
    let start = source.at;
    let found = source.number()?;
    if found >= 7 {
        return Err(Refusal("BadAir", start));
    }
    if found != air {
        return Err(Refusal("BadOrder", start));
    }
    source.exactly(number, "BadOrder", start)?;
    source.exactly(COLUMNS[air], "BadShape", start + 8)?;
    source.exactly(rows, "BadShape", start + 12)
}

fn check_all(source: &mut Source, image: &Image) -> Result<Check, Refusal> {
    let (counts, rows) = counts(source)?;
    let buses = Buses { steps: Bus::new(7), rows: Bus::new(28), operations: Bus::new(18), doublewords: Bus::new(19), accesses: Bus::new(20) };
    let mut check = Check { first: First::default(), buses, published: Vec::new() };
    for air in 0..7 {
        let stride = rows[air] + GAP;
        let mut block = Block { values: vec![ZERO; stride * COLUMNS[air]], rows: rows[air], instance: 0, instances: counts[air] };
        for number in 0..counts[air] {
            block.instance = number;
            head(source, air, number, rows[air])?;
            for k in 0..COLUMNS[air] {
                source.column(&mut block.values[k * stride..][..rows[air]])?;
            }
            let (first, buses) = (&mut check.first, &mut check.buses);
            match air {
                0 => lines::main(&block, image, first, buses),
                1 => lines::mem(&block, first, buses),
                2 => lines::binary(&block, first, buses),
                3 => lines::shift(&block, first, buses),
                4 => lines::arith(&block, first, buses),
                5 => lines::align(&block, first, buses),
                _ => check.published = lines::out(&block, buses),
            }
        }
    }
    if source.at < source.length {
        return Err(Refusal("Trailing", source.at));
    }
    image.initial.iter().for_each(|&[key, lo, hi]| check.buses.accesses.left.push([F(key), ZERO, ONE, F(lo), F(hi)]));
    Ok(check)
}

fn settle(check: Check) -> (First, Vec<[F; 2]>) {
    let Check { mut first, buses, published } = check;
    buses.steps.settle(&mut first);
    buses.operations.settle(&mut first);
    buses.doublewords.settle(&mut first);
    buses.accesses.settle(&mut first);
    buses.rows.settle(&mut first);
    (first, published)
}

fn report(first: First, published: Vec<[F; 2]>) {
    match first.0 {
        Some((line, Place::Row(instance, row))) => println!("broken line {line} instance {instance} row {row}"),
        Some((line, Place::Tuple(tuple, left, right))) => {
            let tuple: Vec<String> = tuple.iter().map(|v| v.0.to_string()).collect();
            println!("broken line {line} tuple {} left {left} right {right}", tuple.join(","));
        }
        None => {
            let word = |[lo, hi]: [F; 2]| lo.0 + (hi.0 << 32);
            let output: String = published[1..33].iter().flat_map(|&w| word(w).to_le_bytes()).map(|b| format!("{b:02x}")).collect();
            println!("accepted\nexit {}\noutput {output}", word(published[0]));
        }
    }
}

fn main() {
    let words: Vec<String> = std::env::args().collect();
    let clock = std::time::Instant::now();
    let image = decode_image(&std::fs::read(&words[1]).unwrap(), &std::fs::read(&words[2]).unwrap());
    let file = File::open(&words[3]).unwrap();
    let length = file.metadata().unwrap().len();
    match check_all(&mut Source { file, at: 0, length }, &image) {
        Err(Refusal(kind, at)) => println!("bad tables {kind} {at}"),
        Ok(check) => {
            let rows = clock.elapsed();
            let (first, published) = settle(check);
            report(first, published);
            if words.len() > 4 {
                eprintln!("reading and rows {:.2} s, lists {:.2} s", rows.as_secs_f64(), (clock.elapsed() - rows).as_secs_f64());
            }
        }
    }
}
