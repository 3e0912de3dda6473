//! A speed baseline for a WebAssembly decoder and encoder, in plain Rust.
//!
//! It reads a file whole, decodes the functions of its code section, each body into one flat vector
//! of entries, encodes them all again, and tells how fast it was. It reads the code section only:
//! the header is passed over, other sections are skipped by their size, and nothing is judged but
//! what the reading itself needs. Instructions on floats are faults. Usage: `plain FILE ROUNDS`.

use std::error::Error;
use std::hint::black_box;
use std::num::NonZeroU32;
use std::time::{Duration, Instant};

const HEADER_SIZE: usize = 8;
const CODE_SECTION: u8 = 10;
/// How many blocks may be open at once.
const MAX_DEPTH: usize = 20_000;
/// The bit of a LEB128 byte that says that another one follows.
const MORE: u8 = 0x80;

const ELSE: u8 = 0x05;
const END: u8 = 0x0b;
const BR_TABLE: u8 = 0x0e;
const CALL_INDIRECT: u8 = 0x11;
const MEMORY_SIZE: u8 = 0x3f;
const MEMORY_GROW: u8 = 0x40;
const I32_CONST: u8 = 0x41;
const I64_CONST: u8 = 0x42;

// The block types that are no index, as the signed numbers they are.
const I32_TYPE: i64 = -1;
const I64_TYPE: i64 = -2;
const EMPTY_TYPE: i64 = -64;

/// The opcode of an instruction without immediates, or with a zero byte alone.
struct SimpleOp(u8);

/// The opcode of an instruction with one index.
#[derive(Clone, Copy)]
#[repr(u8)]
enum IndexOp {
    Br = 0x0c,
    BrIf = 0x0d,
    Call = 0x10,
    LocalGet = 0x20,
    LocalSet = 0x21,
    LocalTee = 0x22,
    GlobalGet = 0x23,
    GlobalSet = 0x24,
}

/// The opcode of a load or a store.
struct MemOp(u8);

enum Instr {
    Simple(SimpleOp),
    Index(IndexOp, u32),
    /// With the alignment and the offset.
    Mem(MemOp, u32, u32),
    /// The default label and the others, in a box lest every instruction grow by a vector.
    BrTable(u32, Box<Vec<u32>>),
    CallIndirect(u32),
    I32Const(i32),
    I64Const(i64),
}

/// The opcode of an instruction that opens a block.
#[derive(Clone, Copy)]
#[repr(u8)]
enum Kind {
    Block = 0x02,
    Loop = 0x03,
    If = 0x04,
}

struct ValueType(u8);

enum BlockType {
    Empty,
    Value(ValueType),
    Index(u32),
}

/// One step of a body, in which the blocks lie flat.
#[repr(u8)]
enum Entry {
    Plain(Instr),
    Begin(Kind, BlockType),
    Else,
    End,
}

struct Function {
    /// How many locals there are of which type, group by group.
    locals: Vec<(u32, ValueType)>,
    /// The entries up to the end of the body, which is not among them.
    body: Vec<Entry>,
}

/// What is wrong, and at which byte of the file.
#[derive(Debug)]
#[allow(dead_code)] // The places are for `Debug` alone.
enum Fault {
    EndOfFile(u64),
    LongNumber(u64),
    BlockType(u64),
    Opcode(u64),
    StrayElse(u64),
    TooDeep(u64),
    BodySize(u64),
}

/// Gives the bytes of a file, one at a time.
struct Source<'a> {
    bytes: &'a [u8],
    position: usize,
}

impl Source<'_> {
    fn place(&self) -> u64 {
        self.position as u64
    }

    /// The next byte, or none at the end. A slice can't fail, but the sources it stands for can.
    fn next(&mut self) -> Result<Option<u8>, Fault> {
        let byte = self.bytes.get(self.position).copied();
        self.position += usize::from(byte.is_some());
        Ok(byte)
    }

    fn byte(&mut self) -> Result<u8, Fault> {
        let at = self.place();
        self.next()?.ok_or(Fault::EndOfFile(at))
    }

    #[inline]
    fn unsigned(&mut self) -> Result<u32, Fault> {
        let (at, first) = (self.place(), self.byte()?);
        if first < MORE {
            return Ok(u32::from(first));
        }
        self.long_unsigned(at, first)
    }

    #[inline(never)]
    fn long_unsigned(&mut self, at: u64, first: u8) -> Result<u32, Fault> {
        let mut value = u32::from(first & !MORE);
        for shift in (7..u32::BITS).step_by(7) {
            let byte = self.byte()?;
            value |= u32::from(byte & !MORE) << shift;
            if byte < MORE {
                return Ok(value);
            }
        }
        Err(Fault::LongNumber(at))
    }

    fn signed(&mut self, most_bits: u32) -> Result<i64, Fault> {
        let at = self.place();
        let (mut value, mut bits) = (0, 0);
        while bits < most_bits {
            let byte = self.byte()?;
            value |= i64::from(byte & !MORE) << bits;
            bits += 7;
            if byte < MORE {
                let unused = i64::BITS.saturating_sub(bits);
                return Ok(value << unused >> unused);
            }
        }
        Err(Fault::LongNumber(at))
    }
}

fn block_type(source: &mut Source) -> Result<BlockType, Fault> {
    let at = source.place();
    match source.signed(33)? {
        EMPTY_TYPE => Ok(BlockType::Empty),
        value @ (I32_TYPE | I64_TYPE) => Ok(BlockType::Value(ValueType(value as u8 & !MORE))),
        value if value >= 0 => Ok(BlockType::Index(value as u32)),
        _ => Err(Fault::BlockType(at)),
    }
}

fn branch_table(source: &mut Source) -> Result<Instr, Fault> {
    let count = source.unsigned()?;
    let labels = (0..count)
        .map(|_| source.unsigned())
        .collect::<Result<_, _>>()?;
    Ok(Instr::BrTable(source.unsigned()?, Box::new(labels)))
}

/// The instruction of an opcode, with its immediates.
fn instruction(opcode: u8, at: u64, source: &mut Source) -> Result<Instr, Fault> {
    Ok(match opcode {
        0x00 | 0x01 | 0x0f | 0x1a | 0x1b | 0xa7 | 0xac | 0xad => Instr::Simple(SimpleOp(opcode)),
        0x45..=0x5a | 0x67..=0x8a | 0xc0..=0xc4 => Instr::Simple(SimpleOp(opcode)),
        0x0c => Instr::Index(IndexOp::Br, source.unsigned()?),
        0x0d => Instr::Index(IndexOp::BrIf, source.unsigned()?),
        0x10 => Instr::Index(IndexOp::Call, source.unsigned()?),
        0x20 => Instr::Index(IndexOp::LocalGet, source.unsigned()?),
        0x21 => Instr::Index(IndexOp::LocalSet, source.unsigned()?),
        0x22 => Instr::Index(IndexOp::LocalTee, source.unsigned()?),
        0x23 => Instr::Index(IndexOp::GlobalGet, source.unsigned()?),
        0x24 => Instr::Index(IndexOp::GlobalSet, source.unsigned()?),
        0x28 | 0x29 | 0x2c..=0x37 | 0x3a..=0x3e => {
            Instr::Mem(MemOp(opcode), source.unsigned()?, source.unsigned()?)
        }
        BR_TABLE => branch_table(source)?,
        CALL_INDIRECT => {
            let type_index = source.unsigned()?;
            source.byte()?;
            Instr::CallIndirect(type_index)
        }
        MEMORY_SIZE | MEMORY_GROW => source.byte().map(|_| Instr::Simple(SimpleOp(opcode)))?,
        I32_CONST => Instr::I32Const(source.signed(32)? as i32),
        I64_CONST => Instr::I64Const(source.signed(64)?),
        _ => return Err(Fault::Opcode(at)),
    })
}

fn entry(source: &mut Source) -> Result<Entry, Fault> {
    let at = source.place();
    Ok(match source.byte()? {
        0x02 => Entry::Begin(Kind::Block, block_type(source)?),
        0x03 => Entry::Begin(Kind::Loop, block_type(source)?),
        0x04 => Entry::Begin(Kind::If, block_type(source)?),
        ELSE => Entry::Else,
        END => Entry::End,
        opcode => Entry::Plain(instruction(opcode, at, source)?),
    })
}

/// The entries up to the end of an expression.
fn expression(source: &mut Source) -> Result<Vec<Entry>, Fault> {
    let mut entries = Vec::new();
    // Of each open block, whether an else may follow.
    let mut open = Vec::new();
    loop {
        let at = source.place();
        let entry = entry(source)?;
        match entry {
            Entry::Plain(_) => {}
            Entry::Begin(..) if open.len() >= MAX_DEPTH => return Err(Fault::TooDeep(at)),
            Entry::Begin(kind, _) => open.push(matches!(kind, Kind::If)),
            Entry::Else => match open.last_mut() {
                Some(may_follow @ true) => *may_follow = false,
                _ => return Err(Fault::StrayElse(at)),
            },
            Entry::End if open.pop().is_none() => return Ok(entries),
            // An else part without instructions is none.
            Entry::End => drop(entries.pop_if(|last| matches!(last, Entry::Else))),
        }
        entries.push(entry);
    }
}

fn function(source: &mut Source) -> Result<Function, Fault> {
    let size = source.unsigned()?;
    let start = source.place();
    let mut locals = Vec::new();
    for _ in 0..source.unsigned()? {
        locals.push((source.unsigned()?, ValueType(source.byte()?)));
    }
    let body = expression(source)?;
    if source.place() - start != u64::from(size) {
        return Err(Fault::BodySize(start));
    }
    Ok(Function { locals, body })
}

fn decode(source: &mut Source) -> Result<Vec<Function>, Fault> {
    let mut functions = Vec::new();
    while let Some(section) = source.next()? {
        let size = source.unsigned()?;
        if section == CODE_SECTION {
            for _ in 0..source.unsigned()? {
                functions.push(function(source)?);
            }
        } else {
            source.position += size as usize;
        }
    }
    Ok(functions)
}

#[derive(Default)]
struct Sink(Vec<u8>);

impl Sink {
    fn byte(&mut self, byte: u8) -> &mut Sink {
        self.0.push(byte);
        self
    }

    fn unsigned(&mut self, mut value: u32) -> &mut Sink {
        while value >= u32::from(MORE) {
            self.byte(value as u8 | MORE);
            value >>= 7;
        }
        self.byte(value as u8)
    }

    fn signed(&mut self, mut value: i64) -> &mut Sink {
        while !(-64..64).contains(&value) {
            self.byte(value as u8 | MORE);
            value >>= 7;
        }
        self.byte(value as u8 & !MORE)
    }

    fn instruction(&mut self, instruction: &Instr) -> &mut Sink {
        match instruction {
            Instr::Simple(SimpleOp(op @ (MEMORY_SIZE | MEMORY_GROW))) => self.byte(*op).byte(0),
            Instr::Simple(op) => self.byte(op.0),
            Instr::Index(op, index) => self.byte(*op as u8).unsigned(*index),
            Instr::Mem(op, align, offset) => self.byte(op.0).unsigned(*align).unsigned(*offset),
            Instr::BrTable(default, labels) => {
                self.byte(BR_TABLE).unsigned(labels.len() as u32);
                for label in labels.iter() {
                    self.unsigned(*label);
                }
                self.unsigned(*default)
            }
            Instr::CallIndirect(index) => self.byte(CALL_INDIRECT).unsigned(*index).byte(0),
            Instr::I32Const(value) => self.byte(I32_CONST).signed(i64::from(*value)),
            Instr::I64Const(value) => self.byte(I64_CONST).signed(*value),
        }
    }

    fn entry(&mut self, entry: &Entry) -> &mut Sink {
        match entry {
            Entry::Plain(instruction) => self.instruction(instruction),
            Entry::Begin(kind, BlockType::Empty) => self.byte(*kind as u8).signed(EMPTY_TYPE),
            Entry::Begin(kind, BlockType::Value(of)) => self.byte(*kind as u8).byte(of.0),
            Entry::Begin(kind, BlockType::Index(of)) => self.byte(*kind as u8).signed((*of).into()),
            Entry::Else => self.byte(ELSE),
            Entry::End => self.byte(END),
        }
    }

    fn function(&mut self, function: &Function) {
        self.unsigned(function.locals.len() as u32);
        for (count, value_type) in &function.locals {
            self.unsigned(*count).byte(value_type.0);
        }
        for entry in &function.body {
            self.entry(entry);
        }
        self.byte(END);
    }
}

/// The bytes of the functions, as they lie in a code section behind their count.
fn encode(functions: &[Function]) -> Vec<u8> {
    let (mut code, mut scratch) = (Sink::default(), Sink::default());
    for function in functions {
        scratch.0.clear();
        scratch.function(function);
        code.unsigned(scratch.0.len() as u32);
        code.0.extend_from_slice(&scratch.0);
    }
    code.0
}

/// The times from the start until the functions are decoded, encoded, and let go.
fn round(bytes: &[u8]) -> Result<[Duration; 3], Fault> {
    let position = HEADER_SIZE;
    let start = Instant::now();
    let functions = decode(&mut Source { bytes, position })?;
    let decoded = start.elapsed();
    let _code = black_box(encode(&functions));
    let encoded = start.elapsed();
    drop(functions);
    Ok([decoded, encoded, start.elapsed()])
}

fn main() -> Result<(), Box<dyn Error>> {
    assert_eq!(size_of::<Entry>(), 24);
    let arguments: Vec<_> = std::env::args_os().skip(1).collect();
    let [path, rounds] = arguments.as_slice() else {
        return Err("usage: plain FILE ROUNDS".into());
    };
    let bytes = std::fs::read(path)?;
    let rounds: NonZeroU32 = rounds.to_string_lossy().parse()?;
    let mut rates = [vec![], vec![], vec![]];
    for _ in 0..rounds.get() {
        let times = round(&bytes).map_err(|fault| format!("{fault:?}"))?;
        for (rates, time) in rates.iter_mut().zip(&times) {
            rates.push(bytes.len() as f64 / 1e6 / time.as_secs_f64());
        }
    }
    let labels = ["decode", "decode and encode", "decode, encode and let go"];
    for (label, rates) in labels.iter().zip(&mut rates) {
        rates.sort_by(f64::total_cmp);
        let (best, median) = (rates[rates.len() - 1], rates[rates.len() / 2]);
        println!("{label}: best {best:.0} MB/s, median {median:.0} MB/s");
    }
    Ok(())
}
