// The yardstick for row_bench: runs an RV64IM program and fills Main's columns and Mem's rows in the layout of docs/WITNESS.md,
// written apart from the proved program. It decodes each word once, writes a row as its step is made, and sorts the accesses to
// memory alone; those to a register come in order of time. It trusts its file and knows no Zba or Zicond.
//
// Usage: plain_step_rows ELF INPUT STEPS. Build: rustc --edition 2021 -O plain_step_rows.rs
use std::collections::HashMap;
use std::time::Instant;

const MAIN_ROWS: usize = 4096;
const MAIN_COLUMNS: usize = 37;
const MEM_ROWS: usize = 8192;
const MEM_COLUMNS: usize = 15;
const REGISTERS: u32 = 1 << 29;
const END: u64 = 1 << 35;
const LOW: u64 = 0xffff_ffff;
const FACTOR: u64 = 0x0000_0100_0000_01B3;

fn u16_at(file: &[u8], at: usize) -> usize {
    u16::from_le_bytes(file[at..at + 2].try_into().unwrap()) as usize
}

fn u64_at(file: &[u8], at: usize) -> u64 {
    u64::from_le_bytes(file[at..at + 8].try_into().unwrap())
}

/// Rom's cells behind `sel`, and what a step does.
#[derive(Clone, Copy, Default)]
struct Decoded {
    cells: [u64; 21],
    op: u8,
    rs1: u8,
    rs2: u8,
    rd: u8,
    kind: u8,
    b: u64,
    constant: bool,
    jump: Jump,
    target: u64,
    invert: bool,
}

#[derive(Clone, Copy, Default, PartialEq)]
enum Jump {
    #[default]
    None,
    Branch,
    Jal,
    Jalr,
    Halt,
    Illegal,
}

// The operation's number of funct3 and funct7 with two registers, and with W.
fn register_op(f3: u32, f7: u32, word: bool) -> u8 {
    match (word, f7, f3) {
        (false, 0, _) => [1, 11, 4, 3, 8, 12, 7, 6][f3 as usize],
        (false, 32, 0) => 2,
        (false, 32, 5) => 13,
        (false, 1, _) => 17 + f3 as u8,
        (true, 0, 0) => 9,
        (true, 0, 1) => 14,
        (true, 0, 5) => 15,
        (true, 32, 0) => 10,
        (true, 32, 5) => 16,
        (true, 1, 0) => 25,
        (true, 1, _) => 22 + f3 as u8,
        _ => 0,
    }
}

fn decode(word: u32, pc: u64) -> Decoded {
    let field = |low: u32, len: u32| word >> low & ((1 << len) - 1);
    let (rd, f3, f7) = (field(7, 5) as u8, field(12, 3), field(25, 7));
    let (rs1, rs2) = (field(15, 5) as u8, field(20, 5) as u8);
    let signed = word as i32 as i64;
    let i_imm = (signed >> 20) as u64;
    let mut d = Decoded { op: 1, constant: true, ..Decoded::default() };
    match word & 0x7f {
        0x37 => (d.rd, d.b) = (rd, (signed & !0xfff) as u64),
        0x17 => (d.rd, d.b) = (rd, pc.wrapping_add((signed & !0xfff) as u64)),
        0x6f => {
            let imm = (signed >> 31 << 20) as u64 | u64::from(field(12, 8) << 12 | field(20, 1) << 11 | field(21, 10) << 1);
            (d.rd, d.b, d.jump, d.target) = (rd, pc.wrapping_add(4), Jump::Jal, pc.wrapping_add(imm));
        }
        0x67 => (d.rd, d.rs1, d.b, d.jump) = (rd, rs1, i_imm, Jump::Jalr),
        0x63 => {
            let imm = (signed >> 31 << 12) as u64 | u64::from(field(7, 1) << 11 | field(25, 6) << 5 | field(8, 4) << 1);
            (d.rs1, d.rs2, d.constant, d.jump, d.target) = (rs1, rs2, false, Jump::Branch, pc.wrapping_add(imm));
            (d.op, d.invert) = ([5, 5, 0, 0, 4, 4, 3, 3][f3 as usize], f3 % 2 == 1);
        }
        0x03 => (d.rd, d.rs1, d.b, d.kind) = (rd, rs1, i_imm, 1 + f3 as u8),
        0x23 => {
            let imm = (signed >> 25 << 5) as u64 | u64::from(field(7, 5));
            (d.rs1, d.rs2, d.b, d.kind) = (rs1, rs2, imm, 8 + f3 as u8);
        }
        0x13 => {
            let shift = f3 == 1 || f3 == 5;
            d.op = register_op(f3, if shift { f7 & 0x7e } else { 0 }, false);
            (d.rd, d.rs1, d.b) = (rd, rs1, if shift { i_imm & 63 } else { i_imm });
        }
        0x1b => {
            let shift = f3 == 1 || f3 == 5;
            d.op = register_op(f3, if shift { f7 } else { 0 }, true);
            (d.rd, d.rs1, d.b) = (rd, rs1, if shift { i_imm & 31 } else { i_imm });
        }
        0x33 | 0x3b => {
            d.op = register_op(f3, f7, word & 8 != 0);
            (d.rd, d.rs1, d.rs2, d.constant) = (rd, rs1, rs2, false);
        }
        0x0f => {}
        _ if word == 0x73 => (d.rs1, d.jump) = (17, Jump::Halt),
        _ => d.jump = Jump::Illegal,
    }
    d.cells = cells(&d, pc);
    d
}

fn cells(d: &Decoded, pc: u64) -> [u64; 21] {
    let target = if d.target % 4 == 0 && d.target < 1 << 32 { d.target } else { 1 };
    let jumps = d.jump == Jump::Branch || d.jump == Jump::Jal;
    let link = if d.jump == Jump::Jalr { pc.wrapping_add(4) } else { 0 };
    let b = if d.constant { d.b } else { 0 };
    let flag = |is: bool| u64::from(is);
    [
        pc, d.rs1.into(), d.rs2.into(), d.rd.into(), d.op.into(), b & LOW, b >> 32, link & LOW, link >> 32,
        if jumps { target } else { 0 }, d.kind.into(), flag(d.constant), flag(d.rd != 0), flag(0 < d.kind && d.kind < 8),
        flag(d.kind >= 8), flag(d.jump == Jump::Jalr), flag(d.jump == Jump::Jal), flag(d.jump == Jump::Branch),
        flag(d.invert), flag(d.jump == Jump::Halt), 0,
    ]
}

#[inline(always)]
fn word(v: u32) -> u64 {
    v as i32 as u64
}

#[inline(always)]
fn value_of(op: u8, a: u64, b: u64) -> u64 {
    let (sa, sb, la, lb) = (a as i64, b as i64, a as u32, b as u32);
    let (sl, tl) = (la as i32, lb as i32);
    match op {
        1 => a.wrapping_add(b),
        2 => a.wrapping_sub(b),
        3 => u64::from(a < b),
        4 => u64::from(sa < sb),
        5 => u64::from(a == b),
        6 => a & b,
        7 => a | b,
        8 => a ^ b,
        9 => word(la.wrapping_add(lb)),
        10 => word(la.wrapping_sub(lb)),
        11 => a << (b & 63),
        12 => a >> (b & 63),
        13 => (sa >> (b & 63)) as u64,
        14 => word(la << (b & 31)),
        15 => word(la >> (b & 31)),
        16 => word((sl >> (b & 31)) as u32),
        17 => a.wrapping_mul(b),
        18 => (sa as i128 * sb as i128 >> 64) as u64,
        19 => (sa as i128 * b as i128 >> 64) as u64,
        20 => (a as u128 * b as u128 >> 64) as u64,
        21 => if b == 0 { u64::MAX } else { sa.wrapping_div(sb) as u64 },
        22 => a.checked_div(b).unwrap_or(u64::MAX),
        23 => if b == 0 { a } else { sa.wrapping_rem(sb) as u64 },
        24 => a.checked_rem(b).unwrap_or(a),
        25 => word(la.wrapping_mul(lb)),
        26 => if tl == 0 { u64::MAX } else { word(sl.wrapping_div(tl) as u32) },
        27 => word(la.checked_div(lb).unwrap_or(u32::MAX)),
        28 => if tl == 0 { word(la) } else { word(sl.wrapping_rem(tl) as u32) },
        29 => word(la.checked_rem(lb).unwrap_or(la)),
        _ => unreachable!(),
    }
}

/// Memory: pages of 512 doublewords, the last one found first.
struct Memory {
    pages: Vec<[u64; 512]>,
    places: HashMap<u32, usize>,
    last: (u32, usize),
}

impl Memory {
    fn page(&mut self, number: u32) -> usize {
        if self.last.0 != number {
            let next = self.pages.len();
            let place = *self.places.entry(number).or_insert(next);
            if place == next {
                self.pages.push([0; 512]);
            }
            self.last = (number, place);
        }
        self.last.1
    }

    fn word(&mut self, index: u32) -> &mut u64 {
        let page = self.page(index >> 9);
        &mut self.pages[page][index as usize & 511]
    }

    fn set_bytes(&mut self, start: u64, bytes: &[u8]) {
        for (k, &byte) in bytes.iter().enumerate() {
            let at = start + k as u64;
            *self.word((at / 8) as u32) |= u64::from(byte) << (8 * (at % 8));
        }
    }
}

#[derive(Clone, Copy)]
struct Access {
    key: u32,
    write: bool,
    time: u64,
    value: u64,
}

struct Rows {
    main: Vec<Vec<Vec<u64>>>,
    words: Vec<Access>,
    registers: Vec<Vec<Access>>,
}

impl Rows {
    fn put(&mut self, row: usize, values: &[u64; MAIN_COLUMNS]) {
        if row % MAIN_ROWS == 0 {
            self.main.push(vec![vec![0; MAIN_ROWS]; MAIN_COLUMNS]);
        }
        let table = self.main.last_mut().unwrap();
        for (column, value) in table.iter_mut().zip(values) {
            column[row % MAIN_ROWS] = *value;
        }
    }

    fn register(&mut self, number: u8, write: bool, time: u64, value: u64) {
        self.registers[number as usize].push(Access { key: REGISTERS + u32::from(number), write, time, value });
    }
}

fn moved(kind: u8, old: u64, off: u64, value: u64) -> u64 {
    let (shift, width) = (8 * off, 8 << ((kind - 1) % 7 & 3).min(3));
    if kind < 8 {
        let unsigned = kind > 4;
        let width = 8 << ((kind - 1) & 3);
        let raw = old >> shift << (64 - width);
        return if unsigned { raw >> (64 - width) } else { (raw as i64 >> (64 - width)) as u64 };
    }
    let mask = if width == 64 { u64::MAX } else { (1 << width) - 1 };
    old & !(mask << shift) | (value & mask) << shift
}

struct Machine<'a> {
    pc: u64,
    x: [u64; 32],
    memory: Memory,
    code: &'a [(u64, Vec<Decoded>)],
}

impl Machine<'_> {
    fn fetch(&self) -> &Decoded {
        let (start, code) = self.code.iter().find(|(start, code)| *start <= self.pc && self.pc < start + 4 * code.len() as u64).unwrap();
        &code[(self.pc - start) as usize / 4]
    }

    // Makes a step and its rows: whether it halts.
    fn step(&mut self, number: usize, rows: &mut Rows) -> bool {
        let d = *self.fetch();
        let (a, s) = (self.x[d.rs1 as usize], self.x[d.rs2 as usize]);
        let c = value_of(d.op, a, if d.constant { d.b } else { s });
        let flag = (3..=5).contains(&d.op) && c == 1;
        let bit = if d.jump == Jump::Jalr { c & 1 } else { 0 };
        let time = 8 * number as u64;
        rows.register(d.rs1, false, time + 1, a);
        rows.register(d.rs2, false, time + 2, s);
        let (mut index, mut off, mut old, mut new) = (0, 0, 0, 0);
        if d.kind != 0 {
            (index, off) = (c / 8, c % 8);
            let at = self.memory.word(index as u32);
            old = *at;
            new = moved(d.kind, old, off, s);
            rows.words.push(Access { key: index as u32, write: false, time: time + 3, value: old });
            if d.kind >= 8 {
                *at = new;
                rows.words.push(Access { key: index as u32, write: true, time: time + 4, value: new });
            }
        }
        let next = self.pc.wrapping_add(4);
        if d.rd != 0 {
            let value = if d.jump == Jump::Jalr { next } else if d.kind != 0 { new } else { c };
            self.x[d.rd as usize] = value;
            rows.register(d.rd, true, time + 5, value);
        }
        self.pc = match d.jump {
            Jump::None => next,
            Jump::Branch => if flag != d.invert { d.target } else { next },
            Jump::Jal => d.target,
            Jump::Jalr => c & !1,
            Jump::Halt => self.pc,
            Jump::Illegal => panic!("no instruction at {}", self.pc),
        };
        let mut row = [0; MAIN_COLUMNS];
        row[0] = 1;
        row[1..22].copy_from_slice(&d.cells);
        row[22..].copy_from_slice(&[
            a & LOW, a >> 32, s & LOW, s >> 32, c & LOW, c >> 32, u64::from(flag), bit, index & 0xffff, index >> 16, off, old & LOW,
            old >> 32, new & LOW, new >> 32,
        ]);
        rows.put(number, &row);
        d.jump == Jump::Halt
    }
}

// Mem's row of an access behind another.
fn mem_row(before: Option<&Access>, own: Option<&Access>) -> [u64; MEM_COLUMNS] {
    let mut row = [0; MEM_COLUMNS];
    if let Some(a) = own {
        row[..6].copy_from_slice(&[1, a.key.into(), a.time, a.write.into(), a.value & LOW, a.value >> 32]);
    }
    if let (Some(p), Some(a)) = (before, own) {
        let same = p.key == a.key;
        let gap = if same { a.time - p.time - 1 } else { u64::from(a.key - p.key - 1) };
        row[6..10].copy_from_slice(&[same.into(), gap & 0xffff, gap >> 16 & 0xffff, gap >> 32]);
    }
    if let Some(p) = before {
        row[10..].copy_from_slice(&[1, p.key.into(), p.time, p.value & LOW, p.value >> 32]);
    }
    row
}

fn mem_tables(accesses: &[Access]) -> Vec<Vec<Vec<u64>>> {
    let mut tables = Vec::new();
    for first in (0..accesses.len()).step_by(MEM_ROWS) {
        let mut table = vec![vec![0; MEM_ROWS]; MEM_COLUMNS];
        // one row more tells of the last access, where there is room for it
        for row in 0..MEM_ROWS.min(accesses.len() + 1 - first) {
            let at = first + row;
            let values = mem_row(if at == 0 { None } else { Some(&accesses[at - 1]) }, accesses.get(at));
            for (column, value) in table.iter_mut().zip(values) {
                column[row] = value;
            }
        }
        tables.push(table);
    }
    tables
}

// All accesses in order of key, then time.
fn in_order(rows: Rows, memory: &mut Memory, initial: &[(u32, u64)], exit: u64) -> Vec<Access> {
    let Rows { mut words, mut registers, .. } = rows;
    words.extend(initial.iter().map(|&(key, value)| Access { key, write: true, time: 0, value }));
    for key in 0x0a00_0000..0x0a00_0020 {
        words.push(Access { key, write: false, time: END, value: *memory.word(key) });
    }
    words.sort_unstable_by_key(|a| (a.key, a.time));
    registers[10].push(Access { key: REGISTERS + 10, write: false, time: END, value: exit });
    registers.into_iter().for_each(|mut own| words.append(&mut own));
    words
}

fn main() {
    let words: Vec<String> = std::env::args().collect();
    let file = std::fs::read(&words[1]).unwrap();
    let input = std::fs::read(&words[2]).unwrap();
    let limit: usize = words[3].parse().unwrap();
    let begin = Instant::now();
    let mut memory = Memory { pages: Vec::new(), places: HashMap::new(), last: (u32::MAX, 0) };
    let mut code = Vec::new();
    for at in (0..u16_at(&file, 56)).map(|i| u64_at(&file, 32) as usize + 56 * i).filter(|&at| file[at..at + 4] == [1, 0, 0, 0]) {
        let (offset, start, size) = (u64_at(&file, at + 8) as usize, u64_at(&file, at + 16), u64_at(&file, at + 32) as usize);
        let bytes = &file[offset..offset + size];
        memory.set_bytes(start, bytes);
        if file[at + 4] & 1 == 1 {
            let decoded = bytes.chunks_exact(4).enumerate();
            let decoded = decoded.map(|(k, w)| decode(u32::from_le_bytes(w.try_into().unwrap()), start + 4 * k as u64));
            code.push((start, decoded.collect()));
        }
    }
    memory.set_bytes(0x4000_0000, &(input.len() as u64).to_le_bytes());
    memory.set_bytes(0x4000_0008, &input);
    let mut initial = Vec::new();
    for (&number, &place) in &memory.places {
        let page = memory.pages[place].iter().enumerate().filter(|(_, value)| **value != 0);
        initial.extend(page.map(|(k, &value)| (number << 9 | k as u32, value)));
    }
    let mut rows = Rows { main: Vec::new(), words: Vec::new(), registers: vec![Vec::new(); 32] };
    let mut machine = Machine { pc: u64_at(&file, 24), x: [0; 32], memory, code: &code };
    let steps = 1 + (0..limit).find(|&number| machine.step(number, &mut rows)).expect("the run doesn't halt");
    let main = std::mem::take(&mut rows.main);
    let mem = mem_tables(&in_order(rows, &mut machine.memory, &initial, machine.x[10]));
    let took = begin.elapsed().as_micros();
    let values = main.iter().chain(&mem).flatten().flatten();
    let sum = values.fold(0_u64, |sum, value| sum.wrapping_mul(FACTOR).wrapping_add(*value));
    println!("steps {steps} main {} mem {} sum {sum} microseconds {took}", main.len(), mem.len());
}
