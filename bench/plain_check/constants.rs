//! The constant columns of an ELF file and input (docs/WITNESS.md): Rom's rows and the doublewords of memory
//! that aren't 0 at the start.
use std::collections::{BTreeMap, HashMap};

/// Rom's columns behind SEL: PC, RS1, RS2, RD, OP, ILO, IHI, KLO, KHI, JT, KIND, BI, WR, LD, ST, JR, JP, BR,
/// INV, HALT, UW.
pub type RomRow = [u64; 21];

pub struct Image {
    pub entry: u64,
    pub rom: HashMap<u64, RomRow, std::hash::BuildHasherDefault<PlainHash>>,
    /// Key, low limb, high limb.
    pub initial: Vec<[u64; 3]>,
}

/// A product is hash enough for a pc.
#[derive(Default)]
pub struct PlainHash(u64);

impl std::hash::Hasher for PlainHash {
    fn finish(&self) -> u64 {
        self.0
    }
    fn write(&mut self, _: &[u8]) {
        unreachable!()
    }
    fn write_u64(&mut self, value: u64) {
        let product = value.wrapping_mul(0x9E37_79B9_7F4A_7C15);
        self.0 = product ^ product >> 32;
    }
}

#[derive(Default)]
struct Fields {
    rs1: usize,
    rs2: usize,
    rd: usize,
    op: u64,
    b: u64,
    link: u64,
    jt: u64,
    kind: u64,
    two: bool,
    ld: bool,
    st: bool,
    jr: bool,
    jp: bool,
    br: bool,
    inv: bool,
    halt: bool,
    uw: bool,
}

const ADD: u64 = 1;
const LTU: u64 = 3;
const LT: u64 = 4;
const EQ: u64 = 5;

/// The operation of a register instruction of 64 bits, and whether it takes the low half of rs1.
fn operation(f7: usize, f3: usize) -> Option<(u64, bool)> {
    let op = match (f7, f3) {
        (0, _) => [1, 11, 4, 3, 8, 12, 7, 6][f3],
        (32, 0) => 2,
        (32, 5) => 13,
        (1, _) => 17 + f3 as u64,
        (16, 2 | 4 | 6) => 29 + f3 as u64 / 2,
        (7, 5) => 33,
        (7, 7) => 34,
        _ => return None,
    };
    Some((op, false))
}

/// The same of the instructions of 32 bits and those marked uw.
fn half_operation(f7: usize, f3: usize) -> Option<(u64, bool)> {
    Some(match (f7, f3) {
        (0, 0) => (9, false),
        (0, 1) => (14, false),
        (0, 5) => (15, false),
        (32, 0) => (10, false),
        (32, 5) => (16, false),
        (1, 0) => (25, false),
        (1, 4..) => (22 + f3 as u64, false),
        (4, 0) => (ADD, true),
        (16, 2 | 4 | 6) => (29 + f3 as u64 / 2, true),
        _ => return None,
    })
}

/// The operation and the constant of an instruction with an immediate operand, and whether it is uw.
fn with_immediate(half: bool, f3: usize, imm: u64) -> Option<(u64, u64, bool)> {
    let (top, amount) = (imm as usize >> 6 & 63, imm & 63);
    Some(match (half, f3, top) {
        (false, 1, 0) => (11, amount, false),
        (false, 5, 0) => (12, amount, false),
        (false, 5, 16) => (13, amount, false),
        (false, 1 | 5, _) => return None,
        (false, ..) => ([1, 0, 4, 3, 8, 0, 7, 6][f3], imm, false),
        (true, 0, _) => (9, imm, false),
        (true, 1, 2) => (11, amount, true),
        (true, 1, 0) if amount < 32 => (14, amount, false),
        (true, 5, 0) if amount < 32 => (15, amount, false),
        (true, 5, 16) if amount < 32 => (16, amount, false),
        _ => return None,
    })
}

fn target(pc: u64, imm: u64) -> u64 {
    let to = pc.wrapping_add(imm);
    if to % 4 == 0 && to >> 32 == 0 { to } else { 1 }
}

/// What an instruction does; None where the word is none, or EBREAK.
fn fields(pc: u64, word: u32) -> Option<Fields> {
    let field = |low: u32, len: u32| (word >> low & ((1 << len) - 1)) as usize;
    let (rd, f3, f7, rs1, rs2) = (field(7, 5), field(12, 3), field(25, 7), field(15, 5), field(20, 5));
    let signed = word as i32 as i64;
    let (i_imm, u_imm) = ((signed >> 20) as u64, (signed & !0xfff) as u64);
    let plain = Fields { op: ADD, ..Fields::default() };
    Some(match word & 0x7f {
        0x37 => Fields { rd, b: u_imm, ..plain },
        0x17 => Fields { rd, b: pc.wrapping_add(u_imm), ..plain },
        0x6f => {
            let imm = (signed >> 31 << 20) as u64 | (field(12, 8) << 12 | field(20, 1) << 11 | field(21, 10) << 1) as u64;
            Fields { rd, b: pc.wrapping_add(4), jp: true, jt: target(pc, imm), ..plain }
        }
        0x67 if f3 == 0 => Fields { rs1, rd, b: i_imm, jr: true, link: pc.wrapping_add(4), ..plain },
        0x63 => {
            let op = [EQ, EQ, 0, 0, LT, LT, LTU, LTU][f3];
            if op == 0 {
                return None;
            }
            let imm = (signed >> 31 << 12) as u64 | (field(7, 1) << 11 | field(25, 6) << 5 | field(8, 4) << 1) as u64;
            Fields { rs1, rs2, op, two: true, br: true, jt: target(pc, imm), inv: f3 & 1 == 1, ..plain }
        }
        0x03 if f3 < 7 => Fields { rs1, rd, b: i_imm, ld: true, kind: f3 as u64 + 1, ..plain },
        0x23 if f3 < 4 => {
            let imm = (signed >> 25 << 5) as u64 | field(7, 5) as u64;
            Fields { rs1, rs2, b: imm, st: true, kind: f3 as u64 + 8, ..plain }
        }
        0x13 | 0x1b => {
            let (op, b, uw) = with_immediate(word & 8 != 0, f3, i_imm)?;
            Fields { rs1, rd, op, b, uw, ..plain }
        }
        0x33 | 0x3b => {
            let (op, uw) = if word & 8 != 0 { half_operation(f7, f3) } else { operation(f7, f3) }?;
            Fields { rs1, rs2, rd, op, two: true, uw, ..plain }
        }
        0x0f if f3 == 0 => plain,
        _ if word == 0x73 => Fields { rs1: 17, halt: true, ..plain },
        _ => return None,
    })
}

fn rom_row(pc: u64, word: u32) -> Option<RomRow> {
    let f = fields(pc, word)?;
    let (lo, hi) = (|v: u64| v & 0xffff_ffff, |v: u64| v >> 32);
    let flags = [!f.two, f.rd != 0, f.ld, f.st, f.jr, f.jp, f.br, f.inv, f.halt, f.uw].map(u64::from);
    let mut row = [0; 21];
    row[..11].copy_from_slice(&[pc, f.rs1 as u64, f.rs2 as u64, f.rd as u64, f.op, lo(f.b), hi(f.b), lo(f.link), hi(f.link), f.jt, f.kind]);
    row[11..].copy_from_slice(&flags);
    Some(row)
}

/// The constants of a file that is known to be loaded, and of an input.
pub fn decode_image(file: &[u8], input: &[u8]) -> Image {
    let number = |at: usize| u64::from_le_bytes(file[at..at + 8].try_into().unwrap());
    let (first, count) = (number(32) as usize, u16::from_le_bytes(file[56..58].try_into().unwrap()) as usize);
    let mut image = Image { entry: number(24), rom: HashMap::default(), initial: Vec::new() };
    let mut memory: BTreeMap<u64, u64> = BTreeMap::new();
    let mut put = |at: u64, byte: u8| {
        if byte != 0 {
            *memory.entry(at / 8).or_insert(0) |= (byte as u64) << (8 * (at % 8));
        }
    };
    (0x4000_0000..).zip((input.len() as u64).to_le_bytes()).for_each(|(at, byte)| put(at, byte));
    (0x4000_0008..).zip(input).for_each(|(at, &byte)| put(at, byte));
    for at in (0..count).map(|i| first + 56 * i).filter(|&at| file[at..at + 4] == [1, 0, 0, 0]) {
        let (start, length) = (number(at + 16), number(at + 40));
        let bytes = &file[number(at + 8) as usize..][..number(at + 32) as usize];
        (start..).zip(bytes).for_each(|(at, &byte)| put(at, byte));
        if file[at + 4] & 1 == 0 {
            continue;
        }
        // a word behind the file's bytes is 0, and no instruction
        let end = length.min(bytes.len() as u64 + 3);
        for pc in (start.next_multiple_of(4)..).step_by(4).take_while(|pc| pc + 4 <= start + end) {
            let byte = |k: u64| bytes.get((pc - start + k) as usize).copied().unwrap_or(0);
            let word = u32::from_le_bytes([byte(0), byte(1), byte(2), byte(3)]);
            if let Some(row) = rom_row(pc, word) {
                image.rom.insert(pc, row);
            }
        }
    }
    image.initial = memory.into_iter().map(|(key, value)| [key, value & 0xffff_ffff, value >> 32]).collect();
    image
}
