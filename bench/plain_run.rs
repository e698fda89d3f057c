//! The yardstick for `zkw run`: the same machine in plain Rust, written apart from the proved program. It decodes each
//! word once, keeps its pages in a flat table, and trusts its file.
//!
//! Usage: plain_run ELF INPUT STEPS. Build: rustc --edition 2021 -O plain_run.rs

fn u16_at(file: &[u8], at: usize) -> usize {
    u16::from_le_bytes(file[at..at + 2].try_into().unwrap()) as usize
}

fn u64_at(file: &[u8], at: usize) -> u64 {
    u64::from_le_bytes(file[at..at + 8].try_into().unwrap())
}

// ---------------------------------------------------------------- instructions

#[derive(Clone, Copy)]
enum Op {
    Add, Sub, Sll, Slt, Sltu, Xor, Srl, Sra, Or, And,
    AddW, SubW, SllW, SrlW, SraW,
    Mul, Mulh, Mulhsu, Mulhu, Div, Divu, Rem, Remu, MulW, DivW, DivuW, RemW, RemuW,
    Sh1Add, Sh2Add, Sh3Add, AddUw, Sh1AddUw, Sh2AddUw, Sh3AddUw, SllUw, CzeroEqz, CzeroNez,
    Jal, Jalr, Beq, Bne, Blt, Bge, Bltu, Bgeu,
    Lb, Lh, Lw, Ld, Lbu, Lhu, Lwu, Sb, Sh, Sw, Sd,
    Call, Break, Illegal,
}
use Op::*;

/// No instruction writes register 0: what goes there is written beside the registers.
const NOWHERE: u8 = 32;

/// What a step does: its operands are x[rs1] and x[rs2] + imm, one of which is 0.
#[derive(Clone, Copy)]
struct Decoded {
    op: Op,
    rd: u8,
    rs1: u8,
    rs2: u8,
    word: u32,
    imm: u64,
    /// Where a branch or JAL goes.
    target: u64,
}

fn register_op(f7: u32, f3: u32) -> Option<Op> {
    Some(match (f7, f3) {
        (0, _) => [Add, Sll, Slt, Sltu, Xor, Srl, Or, And][f3 as usize],
        (1, _) => [Mul, Mulh, Mulhsu, Mulhu, Div, Divu, Rem, Remu][f3 as usize],
        (7, 5) => CzeroEqz,
        (7, 7) => CzeroNez,
        (16, 2) => Sh1Add,
        (16, 4) => Sh2Add,
        (16, 6) => Sh3Add,
        (32, 0) => Sub,
        (32, 5) => Sra,
        _ => return None,
    })
}

fn word_op(f7: u32, f3: u32) -> Option<Op> {
    Some(match (f7, f3) {
        (0, 0) => AddW,
        (0, 1) => SllW,
        (0, 5) => SrlW,
        (1, 0) => MulW,
        (1, 4) => DivW,
        (1, 5) => DivuW,
        (1, 6) => RemW,
        (1, 7) => RemuW,
        (4, 0) => AddUw,
        (16, 2) => Sh1AddUw,
        (16, 4) => Sh2AddUw,
        (16, 6) => Sh3AddUw,
        (32, 0) => SubW,
        (32, 5) => SraW,
        _ => return None,
    })
}

fn decode(word: u32, pc: u64) -> Option<Decoded> {
    let field = |low: u32, len: u32| word >> low & ((1 << len) - 1);
    let (rd, f3, f7) = (field(7, 5) as u8, field(12, 3), field(25, 7));
    let (rs1, rs2) = (field(15, 5) as u8, field(20, 5) as u8);
    let signed = word as i32 as i64;
    let (i_imm, u_imm) = ((signed >> 20) as u64, (signed & !0xfff) as u64);
    let s_imm = (signed >> 25 << 5) as u64 | u64::from(field(7, 5));
    let b_imm = (signed >> 31 << 12) as u64 | u64::from(field(7, 1) << 11 | field(25, 6) << 5 | field(8, 4) << 1);
    let j_imm = (signed >> 31 << 20) as u64 | u64::from(field(12, 8) << 12 | field(20, 1) << 11 | field(21, 10) << 1);
    let make = |op, rd: u8, rs1, rs2, imm| {
        let rd = if rd == 0 { NOWHERE } else { rd };
        Decoded { op, rd, rs1, rs2, word, imm, target: pc.wrapping_add(if op as u8 == Jal as u8 { j_imm } else { b_imm }) }
    };
    Some(match word & 0x7f {
        0x37 => make(Add, rd, 0, 0, u_imm),
        0x17 => make(Add, rd, 0, 0, pc.wrapping_add(u_imm)),
        0x6f => make(Jal, rd, 0, 0, 0),
        0x67 if f3 == 0 => make(Jalr, rd, rs1, 0, i_imm),
        0x63 => make([Beq, Bne, Illegal, Illegal, Blt, Bge, Bltu, Bgeu][f3 as usize], 0, rs1, rs2, 0),
        0x03 => make([Lb, Lh, Lw, Ld, Lbu, Lhu, Lwu, Illegal][f3 as usize], rd, rs1, 0, i_imm),
        0x23 => make(*[Sb, Sh, Sw, Sd].get(f3 as usize)?, 0, rs1, rs2, s_imm),
        0x13 => match (f3, f7 >> 1) {
            (1, 0) | (5, 0) => make(register_op(0, f3)?, rd, rs1, 0, i_imm & 63),
            (5, 16) => make(Sra, rd, rs1, 0, i_imm & 63),
            (1 | 5, _) => return None,
            _ => make(register_op(0, f3)?, rd, rs1, 0, i_imm),
        },
        0x1b => match (f3, f7) {
            (0, _) => make(AddW, rd, rs1, 0, i_imm),
            (1, 0) | (5, 0 | 32) => make(word_op(f7, f3)?, rd, rs1, 0, i_imm & 31),
            (1, 4 | 5) => make(SllUw, rd, rs1, 0, i_imm & 63),
            _ => return None,
        },
        0x33 => make(register_op(f7, f3)?, rd, rs1, rs2, 0),
        0x3b => make(word_op(f7, f3)?, rd, rs1, rs2, 0),
        0x0f if f3 == 0 => make(Add, 0, 0, 0, 0),
        _ if word == 0x73 => make(Call, 0, 0, 0, 0),
        _ if word == 0x100073 => make(Break, 0, 0, 0, 0),
        _ => return None,
    })
}

/// The words of an executable segment.
struct Code {
    start: u64,
    words: Vec<Decoded>,
}

impl Code {
    fn new(start: u64, bytes: &[u8], len: u64) -> Code {
        let word = |at: usize| {
            let byte = |k| u32::from(bytes.get(at + k).copied().unwrap_or(0)) << (8 * k);
            byte(0) | byte(1) | byte(2) | byte(3)
        };
        let decoded = |at: u64| {
            let (word, pc) = (word(at as usize), start + at);
            decode(word, pc).unwrap_or(Decoded { op: Illegal, rd: NOWHERE, rs1: 0, rs2: 0, word, imm: 0, target: 0 })
        };
        Code { start, words: (0..len / 4).map(|k| decoded(4 * k)).collect() }
    }

    fn at(&self, pc: u64) -> Option<&Decoded> {
        let offset = pc.wrapping_sub(self.start);
        self.words.get((offset >> 2) as usize).filter(|_| offset % 4 == 0)
    }
}

// ---------------------------------------------------------------- memory

/// Addresses below 2^32: for each page of 4,096 bytes its number among those that were touched, or 0.
struct Memory {
    numbers: Vec<u32>,
    pages: Vec<[u8; 4096]>,
}

impl Memory {
    fn new() -> Memory {
        Memory { numbers: vec![0; 1 << 20], pages: vec![[0; 4096]] }
    }

    #[inline(always)]
    fn read<const WIDTH: usize>(&self, at: u64) -> [u8; WIDTH] {
        let page = &self.pages[self.numbers[(at >> 12) as usize] as usize];
        page[(at & 4095) as usize..][..WIDTH].try_into().unwrap()
    }

    #[inline(always)]
    fn write(&mut self, at: u64, bytes: &[u8]) {
        let number = &mut self.numbers[(at >> 12) as usize];
        if *number == 0 {
            *number = self.pages.len() as u32;
            self.pages.push([0; 4096]);
        }
        self.pages[*number as usize][(at & 4095) as usize..][..bytes.len()].copy_from_slice(bytes);
    }
}

// ---------------------------------------------------------------- steps

struct Machine {
    pc: u64,
    x: [u64; 33],
    memory: Memory,
    codes: Vec<Code>,
}

enum End {
    Halt,
    Fault(String),
}

/// A value of 32 bits with its sign.
fn word(value: u32) -> u64 {
    value as i32 as u64
}

#[inline(always)]
fn operation(op: Op, a: u64, b: u64) -> u64 {
    let (sa, sb, la, lb) = (a as i64, b as i64, a as u32, b as u32);
    let (wa, wb, low) = (la as i32, lb as i32, u64::from(la));
    match op {
        Add => a.wrapping_add(b),
        Sub => a.wrapping_sub(b),
        Sll => a << (b & 63),
        Slt => (sa < sb) as u64,
        Sltu => (a < b) as u64,
        Xor => a ^ b,
        Srl => a >> (b & 63),
        Sra => (sa >> (b & 63)) as u64,
        Or => a | b,
        And => a & b,
        AddW => word(la.wrapping_add(lb)),
        SubW => word(la.wrapping_sub(lb)),
        SllW => word(la << (b & 31)),
        SrlW => word(la >> (b & 31)),
        SraW => word((wa >> (b & 31)) as u32),
        Mul => a.wrapping_mul(b),
        Mulh => (sa as i128 * sb as i128 >> 64) as u64,
        Mulhsu => (sa as i128 * b as i128 >> 64) as u64,
        Mulhu => (a as u128 * b as u128 >> 64) as u64,
        Div => if b == 0 { u64::MAX } else { sa.wrapping_div(sb) as u64 },
        Divu => a.checked_div(b).unwrap_or(u64::MAX),
        Rem => if b == 0 { a } else { sa.wrapping_rem(sb) as u64 },
        Remu => a.checked_rem(b).unwrap_or(a),
        MulW => word(la.wrapping_mul(lb)),
        DivW => word(if lb == 0 { u32::MAX } else { wa.wrapping_div(wb) as u32 }),
        DivuW => word(la.checked_div(lb).unwrap_or(u32::MAX)),
        RemW => word(if lb == 0 { la } else { wa.wrapping_rem(wb) as u32 }),
        RemuW => word(la.checked_rem(lb).unwrap_or(la)),
        Sh1Add => (a << 1).wrapping_add(b),
        Sh2Add => (a << 2).wrapping_add(b),
        Sh3Add => (a << 3).wrapping_add(b),
        AddUw => low.wrapping_add(b),
        Sh1AddUw => (low << 1).wrapping_add(b),
        Sh2AddUw => (low << 2).wrapping_add(b),
        Sh3AddUw => (low << 3).wrapping_add(b),
        SllUw => low << (b & 63),
        CzeroEqz => if b == 0 { 0 } else { a },
        CzeroNez => if b != 0 { 0 } else { a },
        _ => unreachable!(),
    }
}

impl Machine {
    /// The address of an access, or the fault.
    #[inline(always)]
    fn address(&self, at: u64, width: u64) -> Result<u64, End> {
        if at % width != 0 {
            Err(End::Fault(format!("Misaligned {} {at}", self.pc)))
        } else if at >> 32 != 0 {
            Err(End::Fault(format!("BadAddress {} {at}", self.pc)))
        } else {
            Ok(at)
        }
    }

    #[inline(always)]
    fn load<const WIDTH: usize>(&mut self, d: &Decoded, value: impl Fn([u8; WIDTH]) -> u64) -> Result<(), End> {
        let at = self.address(self.x[d.rs1 as usize].wrapping_add(d.imm), WIDTH as u64)?;
        self.x[d.rd as usize] = value(self.memory.read(at));
        self.pc = self.pc.wrapping_add(4);
        Ok(())
    }

    #[inline(always)]
    fn store(&mut self, d: &Decoded, width: usize) -> Result<(), End> {
        let at = self.address(self.x[d.rs1 as usize].wrapping_add(d.imm), width as u64)?;
        self.memory.write(at, &self.x[d.rs2 as usize].to_le_bytes()[..width]);
        self.pc = self.pc.wrapping_add(4);
        Ok(())
    }

    #[inline(always)]
    fn jump(&mut self, rd: u8, target: u64) -> Result<(), End> {
        if target % 4 != 0 {
            return Err(End::Fault(format!("BadTarget {} {target}", self.pc)));
        }
        self.x[rd as usize] = self.pc.wrapping_add(4);
        self.pc = target;
        Ok(())
    }

    #[inline(always)]
    fn branch(&mut self, d: &Decoded, taken: fn(u64, u64) -> bool) -> Result<(), End> {
        if taken(self.x[d.rs1 as usize], self.x[d.rs2 as usize]) {
            return self.jump(NOWHERE, d.target);
        }
        self.pc = self.pc.wrapping_add(4);
        Ok(())
    }

    #[inline(always)]
    fn step(&mut self, d: &Decoded) -> Result<(), End> {
        let (a, b) = (self.x[d.rs1 as usize], self.x[d.rs2 as usize].wrapping_add(d.imm));
        match d.op {
            Jal => self.jump(d.rd, d.target),
            Jalr => self.jump(d.rd, a.wrapping_add(b) & !1),
            Beq => self.branch(d, |a, b| a == b),
            Bne => self.branch(d, |a, b| a != b),
            Blt => self.branch(d, |a, b| (a as i64) < b as i64),
            Bge => self.branch(d, |a, b| a as i64 >= b as i64),
            Bltu => self.branch(d, |a, b| a < b),
            Bgeu => self.branch(d, |a, b| a >= b),
            Lb => self.load(d, |bytes: [u8; 1]| bytes[0] as i8 as u64),
            Lh => self.load(d, |bytes| i16::from_le_bytes(bytes) as u64),
            Lw => self.load(d, |bytes| i32::from_le_bytes(bytes) as u64),
            Ld => self.load(d, u64::from_le_bytes),
            Lbu => self.load(d, |bytes: [u8; 1]| u64::from(bytes[0])),
            Lhu => self.load(d, |bytes| u64::from(u16::from_le_bytes(bytes))),
            Lwu => self.load(d, |bytes| u64::from(u32::from_le_bytes(bytes))),
            Sb => self.store(d, 1),
            Sh => self.store(d, 2),
            Sw => self.store(d, 4),
            Sd => self.store(d, 8),
            Call if self.x[17] == 93 => Err(End::Halt),
            Call => Err(End::Fault(format!("BadCall {} {}", self.pc, self.x[17]))),
            Break => Err(End::Fault(format!("Break {}", self.pc))),
            Illegal => Err(End::Fault(format!("Illegal {} {}", self.pc, d.word))),
            op => {
                self.x[d.rd as usize] = operation(op, a, b);
                self.pc = self.pc.wrapping_add(4);
                Ok(())
            }
        }
    }

    /// How many steps there were, and how they ended if they did within the limit.
    fn run(&mut self, limit: u64) -> (u64, Option<End>) {
        let codes = std::mem::take(&mut self.codes);
        let mut steps = 0;
        let mut code = &codes[0];
        while steps < limit {
            let Some(decoded) = code.at(self.pc) else {
                let Some(other) = codes.iter().find(|code| code.at(self.pc).is_some()) else {
                    return (steps, Some(End::Fault(format!("BadPc {}", self.pc))));
                };
                code = other;
                continue;
            };
            steps += 1;
            if let Err(end) = self.step(decoded) {
                return (steps, Some(end));
            }
        }
        (steps, None)
    }
}

// ---------------------------------------------------------------- the program

fn machine(file: &[u8], input: &[u8]) -> Machine {
    let (mut memory, mut codes) = (Memory::new(), Vec::new());
    let window = (input.len() as u64).to_le_bytes().into_iter().chain(input.iter().copied());
    window.enumerate().for_each(|(k, byte)| memory.write(0x4000_0000 + k as u64, &[byte]));
    let (first, count) = (u64_at(file, 32) as usize, u16_at(file, 56));
    for at in (0..count).map(|i| first + 56 * i).filter(|&at| file[at..at + 4] == [1, 0, 0, 0]) {
        let (start, len) = (u64_at(file, at + 16), u64_at(file, at + 40));
        let bytes = &file[u64_at(file, at + 8) as usize..][..u64_at(file, at + 32) as usize];
        bytes.iter().enumerate().for_each(|(k, &byte)| memory.write(start + k as u64, &[byte]));
        if file[at + 4] & 1 == 1 {
            codes.push(Code::new(start, bytes, len));
        }
    }
    Machine { pc: u64_at(file, 24), x: [0; 33], memory, codes }
}

fn main() {
    let words: Vec<String> = std::env::args().collect();
    let (file, input) = (std::fs::read(&words[1]).unwrap(), std::fs::read(&words[2]).unwrap());
    let limit: u64 = words[3].parse().unwrap();
    let mut machine = machine(&file, &input);
    match machine.run(limit) {
        (_, None) => println!("step limit {limit}"),
        (_, Some(End::Fault(fault))) => println!("run fault {fault}"),
        (steps, Some(End::Halt)) => {
            let output = (0..256).map(|k| format!("{:02x}", machine.memory.read::<1>(0x5000_0000 + k)[0]));
            println!("steps {steps}\nexit {}\noutput {}", machine.x[10], output.collect::<String>());
        }
    }
}
