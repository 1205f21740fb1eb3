//! The second run: an interpreter of sessions, line by line.
//!
//! Where the language has no rule the run stops with a fault. An accepted
//! program must never come to one; the checks rely on that.

use crate::reading::{
    Count, Logic, Op, Stop, Term, Text, Unit, BLOCK_DONE, BLOCK_INIT, CELLS, CLEAR, HALT, INIT,
    INPUT, MAIN,
};
use std::collections::BTreeMap;

/// The bit address of ZAV_FCE.
pub const ZAV_FCE: usize = 128;

/// A call after the start, with the byte that stands for it.
#[derive(Clone, Copy, PartialEq, Eq, Debug)]
pub enum Call {
    Scan = 0,
    Clear = 1,
    BlockStart = 2,
    PositionReport = 3,
    Halt = 4,
}

/// The calls behind the bytes; none where a byte is unknown or a halt is not
/// the last.
pub fn calls_from(bytes: &[u8]) -> Option<Vec<Call>> {
    let last = bytes.len().saturating_sub(1);
    let each = bytes.iter().enumerate();
    each.map(|(at, byte)| match byte {
        0 => Some(Call::Scan),
        1 => Some(Call::Clear),
        2 => Some(Call::BlockStart),
        3 => Some(Call::PositionReport),
        4 if at == last => Some(Call::Halt),
        _ => None,
    })
    .collect()
}

/// What the start or a call answers.
#[derive(Clone, Copy, PartialEq, Eq, Debug)]
pub enum Answer {
    Scanned { steps: u32 },
    Done,
    Refused { number: u8 },
}

/// A row of the stimulus cabinet.
#[derive(Clone, Copy, PartialEq, Eq, Debug)]
pub struct Row {
    pub scan: u32,
    pub port: u8,
    pub byte: u8,
}

/// What makes a cabinet's inputs when it is advanced.
#[derive(Clone, Debug)]
enum Rule {
    Stimulus { waiting: Vec<Row>, number: u32 },
    Patch,
}

/// Eight inputs and eight terminals.
#[derive(Clone, Debug)]
pub struct Cabinet {
    inputs: [u8; 8],
    terminals: [u8; 8],
    rule: Rule,
}

impl Cabinet {
    pub fn stimulus(rows: &[Row]) -> Self {
        let waiting = rows.iter().rev().copied().collect();
        let mut cabinet = Self::with(Rule::Stimulus { waiting, number: 0 });
        cabinet.apply_rows();
        cabinet
    }

    pub fn patch() -> Self {
        Self::with(Rule::Patch)
    }

    fn with(rule: Rule) -> Self {
        Cabinet {
            inputs: [0; 8],
            terminals: [0; 8],
            rule,
        }
    }

    fn advance(&mut self) {
        match &mut self.rule {
            Rule::Stimulus { number, .. } => {
                *number = number.saturating_add(1);
                self.apply_rows();
            }
            Rule::Patch => self.inputs = self.terminals,
        }
    }

    /// Takes the rows that are due. The next row is the last of the waiting.
    fn apply_rows(&mut self) {
        let Rule::Stimulus { waiting, number } = &mut self.rule else {
            return;
        };
        while let Some(row) = waiting.pop() {
            if row.scan > *number {
                waiting.push(row);
                return;
            }
            if let Some(input) = self.inputs.get_mut(row.port as usize) {
                *input = row.byte;
            }
        }
    }
}

/// A step for which the language has no rule.
#[derive(Clone, Copy, PartialEq, Eq, Debug)]
pub enum Fault {
    Push,
    Pop,
    Access,
    Line,
}

/// How a pass ended.
#[derive(Clone, Copy, PartialEq, Eq, Debug)]
enum Ending {
    AtEnd,
    AtExit,
}

/// What exists only inside a pass.
struct Registers {
    rlo: bool,
    dr: u32,
    stack: Vec<bool>,
}

/// Where control goes after a line.
enum Next {
    Line(usize),
    Leave,
}

/// A running session.
pub struct Session<'a> {
    text: &'a Text,
    flags: Vec<bool>,
    cabinet: Cabinet,
    data: Vec<u8>,
    points: BTreeMap<Unit, usize>,
    phase: u8,
    steps: u32,
    peak: usize,
    waits: usize,
}

/// What can be seen of a session after the start or a call.
#[derive(Clone, PartialEq, Eq, Debug)]
pub struct View {
    pub answer: Answer,
    pub phase: u8,
    pub terminals: [u8; 8],
    /// The points of BLOCK_INIT, BLOCK_DONE and each mechanism.
    pub points: Vec<usize>,
    pub data: Vec<u8>,
}

impl View {
    /// The view as a record of bytes.
    pub fn record(&self) -> Vec<u8> {
        let (kind, number, steps) = match self.answer {
            Answer::Scanned { steps } => (0, 0, steps),
            Answer::Done => (1, 0, 0),
            Answer::Refused { number } => (2, number, 0),
        };
        let mut record = vec![kind, number, self.phase];
        record.extend(steps.to_le_bytes());
        record.extend(self.terminals);
        for &point in &self.points {
            record.extend((point as u16).to_le_bytes());
        }
        record.extend(&self.data);
        record
    }

    /// The number of bytes of a record.
    pub fn record_size(text: &Text) -> usize {
        3 + 4 + 8 + 2 * (2 + text.mechanisms()) + text.program.data.len()
    }
}

impl<'a> Session<'a> {
    /// Starts a session and answers it with its first view.
    pub fn start(text: &'a Text, cabinet: Cabinet) -> Result<(Self, View), Fault> {
        let points = text
            .units()
            .filter(|unit| unit.is_sequential())
            .map(|unit| (unit, text.span(unit).start))
            .collect();
        let mut session = Session {
            text,
            flags: (0..text.ops.len()).map(|line| text.flag(line)).collect(),
            cabinet,
            data: text.program.data.clone(),
            points,
            phase: 0,
            steps: 0,
            peak: 0,
            waits: 0,
        };
        session.run(INIT)?;
        session.send_outputs();
        let view = session.view(Answer::Done);
        Ok((session, view))
    }

    pub fn call(&mut self, call: Call) -> Result<View, Fault> {
        let answer = match call {
            Call::Scan => self.scan()?,
            Call::Clear => self.clear()?,
            Call::BlockStart => self.block_start(),
            Call::PositionReport => self.position_report()?,
            Call::Halt => self.halt()?,
        };
        Ok(self.view(answer))
    }

    /// The greatest number of cells stacked so far.
    pub fn peak(&self) -> usize {
        self.peak
    }

    /// How many passes an EX0 or EX1 has ended so far.
    pub fn waits(&self) -> usize {
        self.waits
    }

    fn view(&self, answer: Answer) -> View {
        View {
            answer,
            phase: self.phase,
            terminals: self.cabinet.terminals,
            points: self.points.values().copied().collect(),
            data: self.data.clone(),
        }
    }

    fn scan(&mut self) -> Result<Answer, Fault> {
        self.data[..8].copy_from_slice(&self.cabinet.inputs);
        self.steps = 0;
        self.run(INPUT)?;
        self.block_part()?;
        self.run(MAIN)?;
        self.send_outputs();
        self.cabinet.advance();
        Ok(Answer::Scanned { steps: self.steps })
    }

    fn block_part(&mut self) -> Result<(), Fault> {
        let (module, phase_after) = match self.phase {
            1 => (BLOCK_INIT, 2),
            3 => (BLOCK_DONE, 0),
            _ => return Ok(()),
        };
        if self.run(module)? == Ending::AtEnd {
            self.phase = phase_after;
        }
        Ok(())
    }

    fn clear(&mut self) -> Result<Answer, Fault> {
        self.run(CLEAR)?;
        self.phase = 0;
        for unit in [Unit::Module(BLOCK_INIT), Unit::Module(BLOCK_DONE)] {
            self.set_point(unit, self.text.span(unit).start);
        }
        self.send_outputs();
        Ok(Answer::Done)
    }

    fn block_start(&mut self) -> Answer {
        if self.phase != 0 {
            return Answer::Refused { number: 20 };
        }
        self.phase = 1;
        Answer::Done
    }

    fn position_report(&mut self) -> Result<Answer, Fault> {
        if self.phase != 2 {
            return Ok(Answer::Refused { number: 21 });
        }
        self.phase = if self.bit(ZAV_FCE)? { 3 } else { 0 };
        Ok(Answer::Done)
    }

    fn halt(&mut self) -> Result<Answer, Fault> {
        self.run(HALT)?;
        self.send_outputs();
        Ok(Answer::Done)
    }

    fn send_outputs(&mut self) {
        self.cabinet.terminals.copy_from_slice(&self.data[8..16]);
    }

    fn run(&mut self, module: usize) -> Result<Ending, Fault> {
        self.pass(Unit::Module(module))
    }

    /// One pass of a unit, from its point or its first line.
    fn pass(&mut self, unit: Unit) -> Result<Ending, Fault> {
        let span = self.text.span(unit);
        let mut registers = Registers {
            rlo: false,
            dr: 0,
            stack: Vec::new(),
        };
        let mut line = self.points.get(&unit).copied().unwrap_or(span.start);
        while line != span.end {
            if self.text.owner(line) != Some(unit) {
                return Err(Fault::Line);
            }
            self.steps += 1;
            match self.step(unit, line, &mut registers)? {
                Next::Line(next) => line = next,
                Next::Leave => return Ok(Ending::AtExit),
            }
            self.peak = self.peak.max(registers.stack.len());
        }
        self.set_point(unit, span.start);
        Ok(Ending::AtEnd)
    }

    /// A unit that is not sequential has no point to set.
    fn set_point(&mut self, unit: Unit, line: usize) {
        if let Some(point) = self.points.get_mut(&unit) {
            *point = line;
        }
    }

    fn step(&mut self, unit: Unit, line: usize, now: &mut Registers) -> Result<Next, Fault> {
        let text = self.text;
        match text.ops[line] {
            Op::Load { address, negated } => {
                if self.flags[line] {
                    now.push()?;
                }
                now.rlo = self.bit(address)? != negated;
            }
            Op::Combine { how, with } => {
                let other = match with {
                    Term::Bit { address, negated } => self.bit(address)? != negated,
                    Term::Cell => now.stack.pop().ok_or(Fault::Pop)?,
                };
                now.rlo = match how {
                    Logic::And => now.rlo && other,
                    Logic::Or => now.rlo || other,
                    Logic::Xor => now.rlo != other,
                };
            }
            Op::Negate => now.rlo = !now.rlo,
            Op::Write { address } => self.set_bit(address, now.rlo)?,
            Op::Put { address, value } => self.set_bit(address, value)?,
            Op::PutIf { address, value } => {
                if now.rlo {
                    self.set_bit(address, value)?;
                }
            }
            Op::Jump { when, target } => {
                if now.rlo == when {
                    return Ok(Next::Line(target));
                }
            }
            Op::Exit(stop) => return Ok(self.exit(unit, line, stop, now.rlo)),
            Op::Number { what, width, place } => self.count(what, width, place, now)?,
            Op::Absolute { width } => {
                now.dr = low(signed(now.dr, width).unsigned_abs(), width);
            }
            Op::Begin(k) => {
                if self.bit(text.program.activation[k] as usize)? {
                    self.pass(Unit::Mechanism(k))?;
                }
                now.rlo = false;
                now.dr = 0;
            }
            Op::End(k) => self.set_bit(text.program.activation[k] as usize, false)?,
            Op::Reset(k) => {
                self.set_bit(text.program.activation[k] as usize, false)?;
                let mechanism = Unit::Mechanism(k);
                self.set_point(mechanism, text.span(mechanism).start);
            }
        }
        Ok(Next::Line(text.following(line)))
    }

    /// An EX-type line: leave or go on, and the point that comes of it.
    fn exit(&mut self, unit: Unit, line: usize, stop: Stop, rlo: bool) -> Next {
        let after = line + 1;
        if stop == Stop::When(rlo) {
            self.waits += 1;
            return Next::Leave;
        }
        self.set_point(unit, after);
        match stop {
            Stop::Always => Next::Leave,
            Stop::When(_) => Next::Line(after),
        }
    }

    fn count(
        &mut self,
        what: Count,
        width: usize,
        place: usize,
        now: &mut Registers,
    ) -> Result<(), Fault> {
        let bytes = self
            .data
            .get_mut(place..place + width)
            .ok_or(Fault::Access)?;
        let number = bytes
            .iter()
            .rev()
            .fold(0u32, |number, &byte| number << 8 | byte as u32);
        match what {
            Count::Load => now.dr = number,
            Count::Store => bytes.copy_from_slice(&now.dr.to_le_bytes()[..width]),
            Count::Add => now.dr = low(now.dr.wrapping_add(number), width),
            Count::AtLeast => now.rlo = signed(now.dr, width) >= signed(number, width),
        }
        Ok(())
    }

    fn bit(&self, address: usize) -> Result<bool, Fault> {
        let byte = self.data.get(address / 8).ok_or(Fault::Access)?;
        Ok(byte >> (address % 8) & 1 == 1)
    }

    fn set_bit(&mut self, address: usize, value: bool) -> Result<(), Fault> {
        let byte = self.data.get_mut(address / 8).ok_or(Fault::Access)?;
        let mask = 1 << (address % 8);
        *byte = if value { *byte | mask } else { *byte & !mask };
        Ok(())
    }
}

impl Registers {
    fn push(&mut self) -> Result<(), Fault> {
        if self.stack.len() == CELLS {
            return Err(Fault::Push);
        }
        self.stack.push(self.rlo);
        Ok(())
    }
}

/// The lowest bytes of a number, as many as the width.
fn low(number: u32, width: usize) -> u32 {
    let upper_bits = 32 - 8 * width as u32;
    number << upper_bits >> upper_bits
}

/// The lowest bytes read in two's complement.
fn signed(number: u32, width: usize) -> i32 {
    let upper_bits = 32 - 8 * width as u32;
    (number << upper_bits) as i32 >> upper_bits
}
