//! The second reading: from the bytes of an image to a verdict.
//!
//! Nothing here walks a unit once with joined values. The text flag and the
//! open mechanism are looked up backwards from a line, depths are found by
//! following every route until it repeats a state, bounds are the longest way
//! that is still to go, and refusal 14 asks what a way to the end leaves out.

use std::collections::BTreeSet;
use std::ops::{Range, RangeInclusive};

pub const INPUT: usize = 0;
pub const BLOCK_INIT: usize = 1;
pub const BLOCK_DONE: usize = 2;
pub const MAIN: usize = 3;
pub const INIT: usize = 4;
pub const CLEAR: usize = 5;
pub const HALT: usize = 6;

/// The number of modules of a program.
pub const MODULES: usize = 7;
/// The number of cells of the stack.
pub const CELLS: usize = 8;

/// Where a refusal belongs, with the layer's number.
#[derive(Clone, Copy, PartialEq, Eq, Debug)]
pub enum Layer {
    Image = 1,
    Text = 2,
}

/// Why an image is turned down.
#[derive(Clone, Copy, PartialEq, Eq, Debug)]
pub struct Refusal {
    pub number: u8,
    pub layer: Layer,
    pub place: usize,
}

impl Refusal {
    fn image(number: u8, place: usize) -> Self {
        Refusal {
            number,
            layer: Layer::Image,
            place,
        }
    }

    fn text(number: u8, place: usize) -> Self {
        Refusal {
            number,
            layer: Layer::Text,
            place,
        }
    }
}

/// What is certified of an accepted program.
#[derive(Clone, Copy, PartialEq, Eq, Debug)]
pub struct Certificate {
    pub lines: usize,
    pub stack: usize,
    pub scan: usize,
}

/// A line as it stands in the image.
#[derive(Clone, Copy, PartialEq, Eq, Debug)]
pub struct Line {
    pub code: u8,
    pub mode: u8,
    pub operand: u16,
}

impl Line {
    pub fn new(code: u8, mode: u8, operand: usize) -> Self {
        Line {
            code,
            mode,
            operand: operand as u16,
        }
    }
}

/// The four lists of an image.
#[derive(Clone, PartialEq, Eq, Debug)]
pub struct Program {
    pub data: Vec<u8>,
    pub activation: Vec<u16>,
    pub lengths: Vec<u16>,
    pub lines: Vec<Line>,
}

impl Program {
    /// The image of the program.
    pub fn encode(&self) -> Vec<u8> {
        let mut image = Vec::new();
        push_number(&mut image, self.data.len());
        image.extend(&self.data);
        for list in [&self.activation, &self.lengths] {
            push_number(&mut image, list.len());
            for &number in list {
                push_number(&mut image, number as usize);
            }
        }
        push_number(&mut image, self.lines.len());
        for line in &self.lines {
            image.extend([line.code, line.mode]);
            push_number(&mut image, line.operand as usize);
        }
        image
    }
}

fn push_number(image: &mut Vec<u8>, number: usize) {
    image.extend((number as u16).to_le_bytes());
}

/// How LA, LO and LX combine two bits.
#[derive(Clone, Copy, PartialEq, Eq, Debug)]
pub enum Logic {
    And,
    Or,
    Xor,
}

/// With what LA, LO and LX combine RLO.
#[derive(Clone, Copy, PartialEq, Eq, Debug)]
pub enum Term {
    Bit { address: usize, negated: bool },
    Cell,
}

/// When an EX-type line ends the pass.
#[derive(Clone, Copy, PartialEq, Eq, Debug)]
pub enum Stop {
    Always,
    When(bool),
}

/// What the number lines do with the number.
#[derive(Clone, Copy, PartialEq, Eq, Debug)]
pub enum Count {
    Load,
    Store,
    Add,
    AtLeast,
}

/// The meaning of a line whose code and mode exist.
#[derive(Clone, Copy, PartialEq, Eq, Debug)]
pub enum Op {
    Load {
        address: usize,
        negated: bool,
    },
    Combine {
        how: Logic,
        with: Term,
    },
    Negate,
    Write {
        address: usize,
    },
    Put {
        address: usize,
        value: bool,
    },
    PutIf {
        address: usize,
        value: bool,
    },
    Jump {
        when: bool,
        target: usize,
    },
    Exit(Stop),
    Number {
        what: Count,
        width: usize,
        place: usize,
    },
    Absolute {
        width: usize,
    },
    Begin(usize),
    End(usize),
    Reset(usize),
}

/// The meaning of a line, or none where its code or mode is unknown.
pub fn meaning(line: Line) -> Option<Op> {
    let operand = line.operand as usize;
    match line.mode {
        0 => meaning_plain(line.code, operand),
        _ => None,
    }
    .or_else(|| meaning_bit(line.code, line.mode, operand))
    .or_else(|| meaning_cell(line.code, line.mode))
    .or_else(|| meaning_number(line.code, line.mode, operand))
}

/// The lines whose only mode is 0.
fn meaning_plain(code: u8, operand: usize) -> Option<Op> {
    Some(match code {
        5 => Op::Negate,
        6 => Op::Write { address: operand },
        9 => Op::Jump {
            when: false,
            target: operand,
        },
        10 => Op::Jump {
            when: true,
            target: operand,
        },
        11 => Op::Exit(Stop::Always),
        12 => Op::Exit(Stop::When(false)),
        13 => Op::Exit(Stop::When(true)),
        22 => Op::Begin(operand),
        23 => Op::End(operand),
        24 => Op::Reset(operand),
        _ => return None,
    })
}

/// The lines with a bit at the modes 0 and 1.
fn meaning_bit(code: u8, mode: u8, address: usize) -> Option<Op> {
    if mode > 1 {
        return None;
    }
    let one = mode == 1;
    Some(match code {
        1 => Op::Load {
            address,
            negated: one,
        },
        7 => Op::Put {
            address,
            value: one,
        },
        8 => Op::PutIf {
            address,
            value: one,
        },
        _ => Op::Combine {
            how: logic(code)?,
            with: Term::Bit {
                address,
                negated: one,
            },
        },
    })
}

/// LA, LO and LX at mode 2.
fn meaning_cell(code: u8, mode: u8) -> Option<Op> {
    if mode != 2 {
        return None;
    }
    Some(Op::Combine {
        how: logic(code)?,
        with: Term::Cell,
    })
}

fn logic(code: u8) -> Option<Logic> {
    match code {
        2 => Some(Logic::And),
        3 => Some(Logic::Or),
        4 => Some(Logic::Xor),
        _ => None,
    }
}

/// The lines whose mode is a width.
fn meaning_number(code: u8, mode: u8, place: usize) -> Option<Op> {
    if ![1, 2, 4].contains(&mode) {
        return None;
    }
    let width = mode as usize;
    let what = match code {
        16 => Count::Load,
        17 => Count::Store,
        19 => Count::Add,
        20 => return Some(Op::Absolute { width }),
        21 => Count::AtLeast,
        _ => return None,
    };
    Some(Op::Number { what, width, place })
}

/// A module or a mechanism, by its number.
#[derive(Clone, Copy, PartialEq, Eq, PartialOrd, Ord, Debug)]
pub enum Unit {
    Module(usize),
    Mechanism(usize),
}

impl Unit {
    pub fn is_sequential(self) -> bool {
        match self {
            Unit::Module(module) => module == BLOCK_INIT || module == BLOCK_DONE,
            Unit::Mechanism(_) => true,
        }
    }
}

/// A text whose lines all have a meaning, with its units.
#[derive(Clone, Debug)]
pub struct Text {
    pub program: Program,
    pub ops: Vec<Op>,
    /// The first line of each module, and the number of lines.
    firsts: Vec<usize>,
    /// The unit of each line.
    owners: Vec<Unit>,
    /// The lines of each mechanism, up to its end.
    spans: Vec<Range<usize>>,
}

impl Text {
    fn new(program: Program, ops: Vec<Op>) -> Self {
        let firsts = (0..=MODULES)
            .map(|module| {
                program.lengths[..module]
                    .iter()
                    .map(|&length| length as usize)
                    .sum()
            })
            .collect();
        let mut text = Text {
            program,
            ops,
            firsts,
            owners: Vec::new(),
            spans: Vec::new(),
        };
        text.owners = (0..text.ops.len())
            .map(|line| text.find_owner(line))
            .collect();
        text.spans = (0..text.mechanisms()).map(|k| text.find_span(k)).collect();
        text
    }

    pub fn mechanisms(&self) -> usize {
        self.program.activation.len()
    }

    /// From the unit's first line to its end.
    pub fn span(&self, unit: Unit) -> Range<usize> {
        match unit {
            Unit::Module(module) => self.firsts[module]..self.firsts[module + 1],
            Unit::Mechanism(k) => self.spans[k].clone(),
        }
    }

    pub fn units(&self) -> impl Iterator<Item = Unit> {
        let mechanisms = (0..self.mechanisms()).map(Unit::Mechanism);
        (0..MODULES).map(Unit::Module).chain(mechanisms)
    }

    fn module_of(&self, line: usize) -> usize {
        (0..MODULES)
            .find(|&module| self.span(Unit::Module(module)).contains(&line))
            .expect("a line stands in a module")
    }

    /// The unit that has the line as its own.
    pub fn owner(&self, line: usize) -> Option<Unit> {
        self.owners.get(line).copied()
    }

    /// The mechanism that is open where the line of MAIN, or its end, stands.
    fn open_before(&self, line: usize) -> Option<usize> {
        let main = self.firsts[MAIN]..line;
        main.rev()
            .find_map(|earlier| match self.ops[earlier] {
                Op::Begin(k) => Some(Some(k)),
                Op::End(_) => Some(None),
                _ => None,
            })
            .flatten()
    }

    fn find_owner(&self, line: usize) -> Unit {
        let module = self.module_of(line);
        if module != MAIN || matches!(self.ops[line], Op::Begin(_)) {
            return Unit::Module(module);
        }
        self.open_before(line)
            .map_or(Unit::Module(MAIN), Unit::Mechanism)
    }

    /// The lines after the mechanism's beginning, its MECH_END the last.
    fn find_span(&self, k: usize) -> Range<usize> {
        let begin = self.ops.iter().position(|&op| op == Op::Begin(k));
        let end = self.ops.iter().position(|&op| op == Op::End(k));
        match (begin, end) {
            (Some(begin), Some(end)) => begin + 1..end + 1,
            _ => 0..0,
        }
    }

    /// The text flag at a line: the nearest line before it that settles it.
    pub fn flag(&self, line: usize) -> bool {
        (self.firsts[self.module_of(line)]..line)
            .rev()
            .find_map(|earlier| flag_after(self.ops[earlier]))
            .unwrap_or(false)
    }

    /// The line that follows in the unit.
    pub fn following(&self, line: usize) -> usize {
        match self.ops[line] {
            Op::Begin(k) => self.spans[k].end,
            _ => line + 1,
        }
    }

    /// Where a route may go from a line.
    fn ways(&self, line: usize) -> Vec<usize> {
        match self.ops[line] {
            Op::Exit(Stop::Always) => vec![],
            Op::Jump { target, .. } => vec![line + 1, target],
            _ => vec![self.following(line)],
        }
    }

    /// Where a route of the unit may begin.
    pub fn beginnings(&self, unit: Unit) -> BTreeSet<usize> {
        let span = self.span(unit);
        let after_exits = span
            .clone()
            .filter(|&line| self.owners[line] == unit && matches!(self.ops[line], Op::Exit(_)))
            .map(|line| line + 1);
        after_exits.chain([span.start]).collect()
    }
}

/// What a line makes of the text flag; none where it leaves it.
fn flag_after(op: Op) -> Option<bool> {
    match op {
        Op::Load { .. } => Some(true),
        Op::Begin(_)
        | Op::End(_)
        | Op::Write { .. }
        | Op::Jump { .. }
        | Op::PutIf { .. }
        | Op::Exit(_) => Some(false),
        _ => None,
    }
}

/// A rule of the text: its number and where it is first broken.
type Rule = (u8, fn(&Text) -> Option<usize>);

/// The verdict on an image.
pub fn judge(image: &[u8]) -> Result<(Text, Certificate), Refusal> {
    let text = form(image)?;
    test(&text, &[(13, bad_depth), (14, uninitialised)])?;
    let certificate = certify(&text);
    Ok((text, certificate))
}

/// The text of an image that breaks none of the refusals 1 to 11.
pub fn form(image: &[u8]) -> Result<Text, Refusal> {
    let program = decode(image)?;
    let ops = meanings(&program)?;
    let text = Text::new(program, ops);
    let rules: [Rule; 5] = [
        (7, bad_operand),
        (8, bad_mechanism),
        (9, bad_jump),
        (10, bad_exit),
        (11, bad_reset),
    ];
    test(&text, &rules)?;
    Ok(text)
}

/// Tests one rule after the other.
fn test(text: &Text, rules: &[Rule]) -> Result<(), Refusal> {
    for &(number, first_place) in rules {
        if let Some(place) = first_place(text) {
            return Err(Refusal::text(number, place));
        }
    }
    Ok(())
}

/// The bytes of an image that are still to be read.
struct Rest<'a> {
    image: &'a [u8],
    offset: usize,
}

impl<'a> Rest<'a> {
    /// Takes so many bytes, or refuses at their offset.
    fn take(&mut self, bytes: usize) -> Result<&'a [u8], Refusal> {
        let end = self.offset + bytes;
        let taken = self
            .image
            .get(self.offset..end)
            .ok_or(Refusal::image(1, self.offset))?;
        self.offset = end;
        Ok(taken)
    }

    /// Takes a count and its section.
    fn section(
        &mut self,
        range: RangeInclusive<usize>,
        record: usize,
    ) -> Result<&'a [u8], Refusal> {
        let place = self.offset;
        let count = number(self.take(2)?) as usize;
        if !range.contains(&count) {
            return Err(Refusal::image(2, place));
        }
        self.take(count * record)
    }
}

fn number(bytes: &[u8]) -> u16 {
    u16::from_le_bytes([bytes[0], bytes[1]])
}

fn numbers(section: &[u8]) -> Vec<u16> {
    section.chunks(2).map(number).collect()
}

/// The program of an image, or one of the refusals 1 to 5.
fn decode(image: &[u8]) -> Result<Program, Refusal> {
    let mut rest = Rest { image, offset: 0 };
    let data = rest.section(17..=1024, 1)?.to_vec();
    let activation = numbers(rest.section(0..=32, 2)?);
    if let Some(k) = activation
        .iter()
        .position(|&bit| bit as usize >= 8 * data.len())
    {
        return Err(Refusal::image(3, 4 + data.len() + 2 * k));
    }
    let lengths = numbers(rest.section(MODULES..=MODULES, 2)?);
    let count_of_lines = rest.offset;
    let lines: Vec<Line> = rest
        .section(0..=2048, 4)?
        .chunks(4)
        .map(|record| Line {
            code: record[0],
            mode: record[1],
            operand: number(&record[2..]),
        })
        .collect();
    if rest.offset < image.len() {
        return Err(Refusal::image(4, rest.offset));
    }
    let sum: usize = lengths.iter().map(|&length| length as usize).sum();
    if sum != lines.len() {
        return Err(Refusal::image(5, count_of_lines));
    }
    Ok(Program {
        data,
        activation,
        lengths,
        lines,
    })
}

/// The meanings of all lines, or refusal 6.
fn meanings(program: &Program) -> Result<Vec<Op>, Refusal> {
    let each = program.lines.iter().enumerate();
    each.map(|(line, &bytes)| meaning(bytes).ok_or(Refusal::text(6, line)))
        .collect()
}

/// Refusal 7: the first line with a bad operand.
fn bad_operand(text: &Text) -> Option<usize> {
    let bits = 8 * text.program.data.len();
    let bytes = text.program.data.len();
    let mechanisms = text.mechanisms();
    (0..text.ops.len()).find(|&line| match text.ops[line] {
        Op::Load { address, .. }
        | Op::Combine {
            with: Term::Bit { address, .. },
            ..
        }
        | Op::Write { address }
        | Op::Put { address, .. }
        | Op::PutIf { address, .. } => address >= bits,
        Op::Number { width, place, .. } => place + width > bytes,
        Op::Begin(k) | Op::End(k) | Op::Reset(k) => k >= mechanisms,
        Op::Jump { .. } => false,
        Op::Negate
        | Op::Exit(_)
        | Op::Absolute { .. }
        | Op::Combine {
            with: Term::Cell, ..
        } => text.program.lines[line].operand != 0,
    })
}

/// Refusal 8: the first line where a mechanism is badly begun or ended.
fn bad_mechanism(text: &Text) -> Option<usize> {
    let bad_line = (0..text.ops.len()).find(|&line| match text.ops[line] {
        Op::Begin(_) => {
            let begun_earlier = text.ops[..line].contains(&text.ops[line]);
            text.module_of(line) != MAIN || text.open_before(line).is_some() || begun_earlier
        }
        Op::End(k) => text.module_of(line) != MAIN || text.open_before(line) != Some(k),
        _ => false,
    });
    let end = text.span(Unit::Module(MAIN)).end;
    let left_open = text.open_before(end).is_some();
    let never_begun = (0..text.mechanisms()).any(|k| !text.ops.contains(&Op::Begin(k)));
    let bad_end = (left_open || never_begun).then_some(end);
    bad_line.into_iter().chain(bad_end).min()
}

/// Refusal 9: the first bad jump.
fn bad_jump(text: &Text) -> Option<usize> {
    (0..text.ops.len()).find(|&line| match text.ops[line] {
        Op::Jump { target, .. } => target <= line || !may_lead(text, text.owners[line], target),
        _ => false,
    })
}

/// Whether a jump of the unit may have this target.
fn may_lead(text: &Text, unit: Unit, target: usize) -> bool {
    let span = text.span(unit);
    let to_own_line = span.contains(&target) && text.owners[target] == unit;
    let to_end = matches!(unit, Unit::Module(_)) && target == span.end;
    to_own_line || to_end
}

/// Refusal 10: the first EX-type line outside a sequential unit.
fn bad_exit(text: &Text) -> Option<usize> {
    (0..text.ops.len())
        .find(|&line| matches!(text.ops[line], Op::Exit(_)) && !text.owners[line].is_sequential())
}

/// Refusal 11: the first MECH_INIT outside INIT and CLEAR.
fn bad_reset(text: &Text) -> Option<usize> {
    (0..text.ops.len()).find(|&line| {
        let module = text.module_of(line);
        matches!(text.ops[line], Op::Reset(_)) && module != INIT && module != CLEAR
    })
}

/// Refusal 13: the first place with a bad depth.
fn bad_depth(text: &Text) -> Option<usize> {
    text.units()
        .filter_map(|unit| Depths::of(text, unit).first_bad)
        .min()
}

/// All depths with which routes of a unit arrive anywhere in it.
struct Depths {
    greatest: usize,
    first_bad: Option<usize>,
}

impl Depths {
    /// Follows every route, and leaves off where it comes to a place with a
    /// depth already seen there, or has broken the rule by itself.
    fn of(text: &Text, unit: Unit) -> Self {
        let span = text.span(unit);
        let mut seen = vec![[false; CELLS + 1]; span.len() + 1];
        let mut bad = BTreeSet::new();
        let mut to_follow: Vec<(usize, usize)> = text
            .beginnings(unit)
            .into_iter()
            .map(|place| (place, 0))
            .collect();
        while let Some((place, depth)) = to_follow.pop() {
            let depths = &mut seen[place - span.start];
            if std::mem::replace(&mut depths[depth], true) {
                continue;
            }
            if depths.iter().filter(|&&arrived| arrived).count() > 1 {
                bad.insert(place);
            }
            match depth_after(text, span.end, place, depth) {
                Ok(after) if place < span.end => {
                    to_follow.extend(text.ways(place).into_iter().map(|way| (way, after)));
                }
                Ok(_) => {}
                Err(BadDepth) => {
                    bad.insert(place);
                }
            }
        }
        let greatest = (0..=CELLS)
            .rev()
            .find(|&depth| seen.iter().any(|place| place[depth]));
        Depths {
            greatest: greatest.unwrap_or(0),
            first_bad: bad.first().copied(),
        }
    }
}

/// A route alone breaks refusal 13.
struct BadDepth;

/// The depth after a place of a unit, by the depth on arrival there.
fn depth_after(text: &Text, end: usize, place: usize, depth: usize) -> Result<usize, BadDepth> {
    let must_be_empty =
        place == end || matches!(text.ops[place], Op::Exit(_) | Op::Begin(_) | Op::End(_));
    if must_be_empty {
        return if depth == 0 { Ok(0) } else { Err(BadDepth) };
    }
    match text.ops[place] {
        Op::Load { .. } if text.flag(place) => {
            if depth < CELLS {
                Ok(depth + 1)
            } else {
                Err(BadDepth)
            }
        }
        Op::Combine {
            with: Term::Cell, ..
        } => depth.checked_sub(1).ok_or(BadDepth),
        _ => Ok(depth),
    }
}

/// Refusal 14: the first of INIT and CLEAR with a way past a MECH_INIT.
fn uninitialised(text: &Text) -> Option<usize> {
    [INIT, CLEAR].into_iter().find(|&module| {
        let span = text.span(Unit::Module(module));
        let mut known = vec![None; span.len()];
        left_out(text, &span, span.start, &mut known) != 0
    })
}

/// The mechanisms that some way from the place to the end leaves out, as bits.
fn left_out(text: &Text, span: &Range<usize>, place: usize, known: &mut Vec<Option<u64>>) -> u64 {
    if place == span.end {
        return (1 << text.mechanisms()) - 1;
    }
    if let Some(set) = known[place - span.start] {
        return set;
    }
    let ways = text.ways(place);
    let further = ways
        .into_iter()
        .fold(0, |set, way| set | left_out(text, span, way, known));
    let set = match text.ops[place] {
        Op::Reset(k) => further & !(1 << k),
        _ => further,
    };
    known[place - span.start] = Some(set);
    set
}

fn certify(text: &Text) -> Certificate {
    let stack = text
        .units()
        .map(|unit| Depths::of(text, unit).greatest)
        .max()
        .unwrap_or(0);
    let module = |number| bound(text, Unit::Module(number));
    Certificate {
        lines: text.program.lines.len(),
        stack,
        scan: module(INPUT) + module(BLOCK_INIT).max(module(BLOCK_DONE)) + module(MAIN),
    }
}

/// The steps of the unit's longest route.
fn bound(text: &Text, unit: Unit) -> usize {
    let span = text.span(unit);
    let mut known = vec![None; span.len()];
    let beginnings = text.beginnings(unit).into_iter();
    beginnings
        .map(|place| longest(text, &span, place, &mut known))
        .max()
        .unwrap_or(0)
}

/// The steps of the longest way from the place on.
fn longest(
    text: &Text,
    span: &Range<usize>,
    place: usize,
    known: &mut Vec<Option<usize>>,
) -> usize {
    if place == span.end {
        return 0;
    }
    if let Some(steps) = known[place - span.start] {
        return steps;
    }
    let inside = match text.ops[place] {
        Op::Begin(k) => bound(text, Unit::Mechanism(k)),
        _ => 0,
    };
    let ways = text.ways(place).into_iter();
    let further = ways
        .map(|way| longest(text, span, way, known))
        .max()
        .unwrap_or(0);
    let steps = 1 + inside + further;
    known[place - span.start] = Some(steps);
    steps
}
