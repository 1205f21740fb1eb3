//! Makes images and sessions from a seed.
//!
//! A case follows from its seed alone. Some programs are built to be accepted,
//! some are built so and then changed a little, some are lines drawn at random,
//! and some are images with damaged, missing or added bytes.

use crate::reading::{Line, Program, BLOCK_DONE, BLOCK_INIT, CELLS, CLEAR, INIT, MAIN, MODULES};
use crate::running::{Row, ZAV_FCE};

/// A pseudo-random number generator (xorshift64*).
pub struct Random(u64);

impl Random {
    /// The seed is stirred, so that near seeds give far numbers.
    pub fn new(seed: u64) -> Self {
        let mut mixed = seed.wrapping_add(0x9e37_79b9_7f4a_7c15);
        mixed = (mixed ^ mixed >> 30).wrapping_mul(0xbf58_476d_1ce4_e5b9);
        mixed = (mixed ^ mixed >> 27).wrapping_mul(0x94d0_49bb_1331_11eb);
        Random((mixed ^ mixed >> 31).max(1))
    }

    fn next(&mut self) -> u64 {
        self.0 ^= self.0 >> 12;
        self.0 ^= self.0 << 25;
        self.0 ^= self.0 >> 27;
        self.0.wrapping_mul(0x2545_f491_4f6c_dd1d)
    }

    /// A number below the limit, which is not 0.
    fn below(&mut self, limit: usize) -> usize {
        ((self.next() >> 32) as usize) % limit
    }

    /// A number from the first to the last, both included.
    fn between(&mut self, first: usize, last: usize) -> usize {
        first + self.below(last - first + 1)
    }

    fn percent(&mut self, share: usize) -> bool {
        self.below(100) < share
    }

    fn byte(&mut self) -> u8 {
        self.below(256) as u8
    }

    fn pick<T: Copy>(&mut self, from: &[T]) -> T {
        from[self.below(from.len())]
    }

    /// The place of one of the weights, drawn by weight.
    fn weighted(&mut self, weights: &[usize]) -> usize {
        let mut drawn = self.below(weights.iter().sum());
        for (at, &weight) in weights.iter().enumerate() {
            if drawn < weight {
                return at;
            }
            drawn -= weight;
        }
        unreachable!("the number drawn is below the sum")
    }
}

/// How an image was made.
#[derive(Clone, Copy, PartialEq, Eq, PartialOrd, Ord, Debug)]
pub enum Kind {
    Valid,
    NearValid,
    Loose,
    Damaged,
    Resized,
}

/// An image and a session for it.
#[derive(Clone, Debug)]
pub struct Case {
    pub seed: u64,
    pub kind: Kind,
    pub image: Vec<u8>,
    pub calls: Vec<u8>,
    pub rows: Vec<Row>,
    pub patch: bool,
}

impl Case {
    pub fn new(seed: u64) -> Self {
        let mut random = Random::new(seed);
        let kinds = [
            Kind::Valid,
            Kind::NearValid,
            Kind::Loose,
            Kind::Damaged,
            Kind::Resized,
        ];
        let kind = kinds[random.weighted(&[40, 36, 9, 7, 8])];
        let image = image(&mut random, kind);
        let calls = calls(&mut random);
        let rows = rows(&mut random);
        let patch = random.percent(40);
        Case {
            seed,
            kind,
            image,
            calls,
            rows,
            patch,
        }
    }
}

fn image(random: &mut Random, kind: Kind) -> Vec<u8> {
    if kind == Kind::Loose {
        return loose(random).encode();
    }
    let mut program = valid(random);
    if kind == Kind::NearValid {
        for _ in 0..random.between(1, 3) {
            mutate(random, &mut program);
        }
    }
    let mut image = program.encode();
    match kind {
        Kind::NearValid if random.percent(8) => spoil_count(random, &program, &mut image),
        Kind::Damaged => damage(random, &mut image),
        Kind::Resized => resize(random, &mut image),
        _ => {}
    }
    image
}

/// What the lines of a program refer to.
struct Frame {
    bytes: usize,
    activation: Vec<u16>,
}

impl Frame {
    fn new(random: &mut Random) -> Self {
        let bytes = match random.weighted(&[10, 40, 40, 8, 2]) {
            0 => 17,
            1 => random.between(17, 24),
            2 => random.between(17, 80),
            3 => random.between(81, 1023),
            _ => 1024,
        };
        let mechanisms = match random.weighted(&[25, 45, 20, 9, 1]) {
            0 => 0,
            1 => random.between(1, 3),
            2 => random.between(4, 8),
            3 => random.between(9, 31),
            _ => 32,
        };
        let mut frame = Frame {
            bytes,
            activation: Vec::new(),
        };
        frame.activation = (0..mechanisms)
            .map(|_| frame.activation_bit(random) as u16)
            .collect();
        frame
    }

    /// Mostly a bit without a fixed meaning.
    fn activation_bit(&self, random: &mut Random) -> usize {
        match random.weighted(&[80, 10, 10]) {
            0 => random.between(ZAV_FCE + 1, 8 * self.bytes - 1),
            1 => random.below(8 * self.bytes),
            _ => 8 * self.bytes - 1,
        }
    }

    /// A bit address inside the data.
    fn bit(&self, random: &mut Random) -> usize {
        match random.weighted(&[30, 22, 10, 16, 18, 4]) {
            0 => random.below(24),
            1 => random.between(64, 87),
            2 => ZAV_FCE,
            3 if !self.activation.is_empty() => random.pick(&self.activation) as usize,
            4 => random.below(8 * self.bytes),
            _ => 8 * self.bytes - 1,
        }
    }

    /// A place at which a number of the width is inside the data.
    fn place(&self, random: &mut Random, width: usize) -> usize {
        let last = self.bytes - width;
        match random.weighted(&[20, 20, 40, 20]) {
            0 => random.below(8),
            1 => random.between(7, last.min(15)),
            2 => random.below(last + 1),
            _ => last,
        }
    }
}

/// A program that is built to be accepted.
fn valid(random: &mut Random) -> Program {
    let frame = Frame::new(random);
    let large = random.percent(2);
    let mut program = Program {
        data: initial_data(random, frame.bytes),
        activation: frame.activation.clone(),
        lengths: Vec::new(),
        lines: Vec::new(),
    };
    for module in 0..MODULES {
        let size = module_size(random, module, large);
        let before = program.lines.len();
        write_module(random, &frame, &mut program.lines, module, size);
        program.lengths.push((program.lines.len() - before) as u16);
    }
    if random.percent(1) && program.lines.len() < 2048 {
        fill_halt(&mut program, 2048);
    }
    program
}

fn initial_data(random: &mut Random, bytes: usize) -> Vec<u8> {
    match random.weighted(&[45, 30, 25]) {
        0 => vec![0; bytes],
        1 => (0..bytes).map(|_| random.byte()).collect(),
        _ => (0..bytes)
            .map(|_| if random.percent(20) { random.byte() } else { 0 })
            .collect(),
    }
}

/// The number of statements that a module is given.
fn module_size(random: &mut Random, module: usize, large: bool) -> usize {
    let most = match (large, module) {
        (true, _) => 120,
        (false, MAIN) => 14,
        (false, BLOCK_INIT | BLOCK_DONE) => 10,
        (false, _) => 8,
    };
    if module != MAIN && random.percent(35) {
        0
    } else {
        random.below(most + 1)
    }
}

/// Lengthens HALT, the last module, until the text has so many lines.
fn fill_halt(program: &mut Program, lines: usize) {
    let more = lines - program.lines.len();
    program.lines.extend(vec![Line::new(5, 0, 0); more]);
    program.lengths[MODULES - 1] += more as u16;
}

fn write_module(
    random: &mut Random,
    frame: &Frame,
    lines: &mut Vec<Line>,
    module: usize,
    size: usize,
) {
    let sequential = module == BLOCK_INIT || module == BLOCK_DONE;
    let mut writer = Writer::new(random, frame, lines, sequential);
    match module {
        MAIN => writer.main(size),
        INIT | CLEAR => writer.initialising(size),
        _ => {
            writer.body(size);
            if module == BLOCK_INIT && writer.random.percent(40) {
                writer.write(7, 1, ZAV_FCE);
            }
            writer.close();
        }
    }
}

/// Writes the lines of one unit and knows flag and depth as it goes.
struct Writer<'a> {
    random: &'a mut Random,
    frame: &'a Frame,
    lines: &'a mut Vec<Line>,
    sequential: bool,
    resets: bool,
    flag: bool,
    depth: usize,
    /// Jumps without a target yet: their lines and their depths.
    open_jumps: Vec<(usize, usize)>,
}

impl<'a> Writer<'a> {
    fn new(
        random: &'a mut Random,
        frame: &'a Frame,
        lines: &'a mut Vec<Line>,
        sequential: bool,
    ) -> Self {
        Writer {
            random,
            frame,
            lines,
            sequential,
            resets: false,
            flag: false,
            depth: 0,
            open_jumps: Vec::new(),
        }
    }

    fn write(&mut self, code: u8, mode: u8, operand: usize) {
        self.lines.push(Line::new(code, mode, operand));
    }

    fn body(&mut self, statements: usize) {
        for _ in 0..statements {
            self.land_jumps(25);
            self.statement();
        }
    }

    fn statement(&mut self) {
        let cell = if self.depth > 0 { 14 } else { 0 };
        let exit = if self.sequential && self.depth == 0 {
            16
        } else {
            0
        };
        let reset = if self.resets && !self.frame.activation.is_empty() {
            8
        } else {
            0
        };
        match self
            .random
            .weighted(&[18, 10, cell, 3, 10, 5, 8, 9, exit, 12, 2, reset, 3, 4])
        {
            0 => self.load(),
            1 => self.combine_bit(),
            2 => self.combine_cell(),
            3 => self.write(5, 0, 0),
            4 => self.write_bit(),
            5 => self.put(),
            6 => self.put_if(),
            7 => self.jump(),
            8 => self.exit(),
            9 => self.number(),
            10 => self.tower(),
            11 => self.reset(),
            12 => self.counter(),
            _ => self.reckoning(),
        }
    }

    fn bit(&mut self) -> usize {
        self.frame.bit(self.random)
    }

    fn zero_or_one(&mut self) -> u8 {
        self.random.below(2) as u8
    }

    fn load(&mut self) {
        if self.flag && self.depth == CELLS {
            return self.combine_cell();
        }
        let (mode, bit) = (self.zero_or_one(), self.bit());
        self.write(1, mode, bit);
        self.depth += usize::from(self.flag);
        self.flag = true;
    }

    fn combine_bit(&mut self) {
        let (code, mode, bit) = (self.random.pick(&[2, 3, 4]), self.zero_or_one(), self.bit());
        self.write(code, mode, bit);
    }

    fn combine_cell(&mut self) {
        let code = self.random.pick(&[2, 3, 4]);
        self.write(code, 2, 0);
        self.depth -= 1;
    }

    fn write_bit(&mut self) {
        let bit = self.bit();
        self.write(6, 0, bit);
        self.flag = false;
    }

    fn put(&mut self) {
        let (mode, bit) = (self.zero_or_one(), self.bit());
        self.write(7, mode, bit);
    }

    fn put_if(&mut self) {
        let (mode, bit) = (self.zero_or_one(), self.bit());
        self.write(8, mode, bit);
        self.flag = false;
    }

    /// A jump that leads to the next line until it is landed elsewhere.
    fn jump(&mut self) {
        let line = self.lines.len();
        let code = self.random.pick(&[9, 10]);
        self.write(code, 0, line + 1);
        self.open_jumps.push((line, self.depth));
        self.flag = false;
    }

    /// Lets some of the open jumps lead here, where the depth is theirs.
    fn land_jumps(&mut self, share: usize) {
        let here = self.lines.len();
        for (line, depth) in std::mem::take(&mut self.open_jumps) {
            if depth == self.depth && self.random.percent(share) {
                self.lines[line].operand = here as u16;
            } else {
                self.open_jumps.push((line, depth));
            }
        }
    }

    /// An EX-type line, often with a condition before it.
    fn exit(&mut self) {
        if !self.flag && self.random.percent(50) {
            self.load();
        }
        let code = self.random.pick(&[11, 12, 13]);
        self.write(code, 0, 0);
        self.flag = false;
    }

    fn number(&mut self) {
        let code = self.random.pick(&[16, 16, 17, 17, 19, 19, 20, 21, 21]);
        self.number_line(code);
    }

    /// A number line of any width.
    fn number_line(&mut self, code: u8) {
        let width = self.random.pick(&[1, 2, 4]);
        let place = self.frame.place(self.random, width);
        self.write(code, width as u8, if code == 20 { 0 } else { place });
    }

    /// Reckons at differing widths and stores or compares the outcome.
    fn reckoning(&mut self) {
        self.number_line(16);
        for _ in 0..self.random.between(1, 3) {
            let code = self.random.pick(&[16, 19, 19, 20, 20]);
            self.number_line(code);
        }
        let last = self.random.pick(&[17, 17, 21]);
        self.number_line(last);
    }

    /// Adds to a number and compares it, as a counter does.
    fn counter(&mut self) {
        let width = self.random.pick(&[1, 2, 4]);
        let place = self.frame.place(self.random, width);
        let (other, limit) = (
            self.frame.place(self.random, width),
            self.frame.place(self.random, width),
        );
        self.write(16, width as u8, place);
        self.write(19, width as u8, other);
        self.write(17, width as u8, place);
        self.write(21, width as u8, limit);
    }

    /// Stacks as many cells as there is room for and takes some away again.
    fn tower(&mut self) {
        let goal = self.random.between(self.depth, CELLS);
        while self.depth < goal || !self.flag {
            self.load();
        }
        let rest = self.random.below(self.depth + 1);
        while self.depth > rest {
            self.combine_cell();
        }
    }

    fn reset(&mut self) {
        let mechanism = self.random.below(self.frame.activation.len());
        self.write(24, 0, mechanism);
    }

    /// Empties the stack.
    fn empty(&mut self) {
        while self.depth > 0 {
            self.combine_cell();
        }
    }

    /// Ends the unit: no cell is left, and some jumps lead to the end.
    fn close(&mut self) {
        self.empty();
        self.land_jumps(60);
        self.open_jumps.clear();
    }

    /// A module in which every way initialises every mechanism.
    fn initialising(&mut self, size: usize) {
        self.resets = true;
        let at_first = self.random.percent(40);
        if at_first {
            self.reset_all();
        }
        self.body(size);
        self.close();
        if !at_first {
            self.reset_all();
        }
    }

    fn reset_all(&mut self) {
        for k in self.shuffled_mechanisms() {
            if self.random.percent(10) {
                self.reset_on_both_ways(k);
            } else {
                self.write(24, 0, k);
            }
        }
    }

    /// Two ways, one initialising the mechanism here and one there.
    fn reset_on_both_ways(&mut self, k: usize) {
        let first = self.lines.len();
        self.write(9, 0, first + 3);
        self.write(24, 0, k);
        self.write(10, 0, first + 4);
        self.write(24, 0, k);
        self.flag = false;
    }

    fn shuffled_mechanisms(&mut self) -> Vec<usize> {
        let mut all: Vec<usize> = (0..self.frame.activation.len()).collect();
        for at in (1..all.len()).rev() {
            all.swap(at, self.random.below(at + 1));
        }
        all
    }

    /// MAIN: its own lines with all mechanisms between them.
    fn main(&mut self, size: usize) {
        let mechanisms = self.shuffled_mechanisms();
        let share = size / (mechanisms.len() + 1);
        for k in mechanisms {
            self.body(share);
            self.empty();
            self.activate(k);
            self.land_jumps(25);
            self.mechanism(k, size);
        }
        self.body(share);
        self.close();
    }

    /// Lines that may set the activation bit.
    fn activate(&mut self, k: usize) {
        let bit = self.frame.activation[k] as usize;
        let (code, mode) = match self.random.weighted(&[45, 15, 25, 15]) {
            0 => (8, 1),
            1 => (6, 0),
            2 => return self.write(7, 1, bit),
            _ => return,
        };
        self.flagless_load();
        self.write(code, mode, bit);
        self.flag = false;
    }

    /// A load that does not push: where the flag is set, a bit is combined.
    fn flagless_load(&mut self) {
        if self.flag {
            self.combine_bit();
        } else {
            self.load();
        }
    }

    fn mechanism(&mut self, k: usize, size: usize) {
        self.write(22, 0, k);
        let statements = self.random.below(size.max(6) + 1);
        let mut inside = Writer::new(self.random, self.frame, self.lines, true);
        inside.body(statements);
        inside.close();
        self.write(23, 0, k);
        self.flag = false;
    }
}

/// A program of lines drawn at random; short ones are sometimes accepted.
fn loose(random: &mut Random) -> Program {
    let frame = Frame::new(random);
    let limit = if random.percent(70) { 8 } else { 60 };
    let lines = random.below(limit);
    let mut lengths = vec![0u16; MODULES];
    for _ in 0..lines {
        lengths[random.below(MODULES)] += 1;
    }
    let activation = if random.percent(60) {
        vec![]
    } else {
        frame.activation.clone()
    };
    Program {
        data: initial_data(random, frame.bytes),
        activation,
        lengths,
        lines: (0..lines)
            .map(|_| loose_line(random, &frame, lines))
            .collect(),
    }
}

/// A line whose code and mode exist and whose operand mostly fits.
fn loose_line(random: &mut Random, frame: &Frame, lines: usize) -> Line {
    let code = random.pick(&[
        1, 1, 2, 3, 4, 5, 6, 7, 8, 9, 10, 11, 12, 13, 16, 17, 19, 20, 21, 22, 23, 24,
    ]);
    let mode = match code {
        1 | 7 | 8 => random.below(2),
        2..=4 => random.below(3),
        16..=21 => random.pick(&[1, 2, 4]),
        _ => 0,
    };
    let operand = match code {
        2..=4 if mode == 2 => 0,
        1..=4 | 6..=8 => frame.bit(random),
        9 | 10 => random.below(lines + 1),
        16 | 17 | 19 | 21 => frame.place(random, mode),
        22..=24 => random.below(frame.activation.len().max(1)),
        _ => 0,
    };
    Line::new(code, mode as u8, operand)
}

/// One change in a program.
fn mutate(random: &mut Random, program: &mut Program) {
    match random.weighted(&[6, 6, 9, 18, 24, 12, 5, 6, 2, 4, 8, 6]) {
        0 => change_line(random, program, |random, line| {
            line.code = random.below(27) as u8
        }),
        1 => change_line(random, program, |random, line| {
            line.mode = random.below(6) as u8
        }),
        2 => change_operand(random, program),
        3 => remove_line(random, program),
        4 => insert_line(random, program),
        5 => change_jump(random, program),
        6 => swap_lines(random, program),
        7 => move_border(random, program),
        8 => change_length(random, program),
        9 => change_activation(random, program),
        10 => drop_reset(random, program),
        _ => change_mechanism_line(random, program),
    }
}

fn change_line(
    random: &mut Random,
    program: &mut Program,
    change: impl Fn(&mut Random, &mut Line),
) {
    if !program.lines.is_empty() {
        let at = random.below(program.lines.len());
        change(random, &mut program.lines[at]);
    }
}

fn change_operand(random: &mut Random, program: &mut Program) {
    let bytes = program.data.len();
    let mechanisms = program.activation.len();
    change_line(random, program, |random, line| {
        line.operand = match random.below(8) {
            0 => line.operand.wrapping_add(1),
            1 => line.operand.wrapping_sub(1),
            2 => 8 * bytes as u16,
            3 => 8 * bytes as u16 - 1,
            4 => (bytes - random.below(5)) as u16,
            5 => mechanisms as u16,
            6 => random.below(65_536) as u16,
            _ => 0,
        };
    });
}

/// The first line of a module.
fn first_line(program: &Program, module: usize) -> usize {
    program.lengths[..module]
        .iter()
        .map(|&length| length as usize)
        .sum()
}

/// Whether the lengths still are those of seven modules of the text.
fn in_order(program: &Program) -> bool {
    program.lengths.len() == MODULES && first_line(program, MODULES) == program.lines.len()
}

fn is_jump(line: &Line) -> bool {
    matches!(line.code, 9 | 10)
}

/// Takes a line away, drawn or given; jumps mostly keep their targets.
fn remove(random: &mut Random, program: &mut Program, at: usize) {
    let module = (0..MODULES)
        .find(|&module| at < first_line(program, module + 1))
        .expect("the line stands in a module");
    program.lines.remove(at);
    program.lengths[module] -= 1;
    if random.percent(85) {
        let jumps = program.lines.iter_mut().filter(|line| is_jump(line));
        jumps
            .filter(|jump| jump.operand as usize > at)
            .for_each(|jump| jump.operand -= 1);
    }
}

fn remove_line(random: &mut Random, program: &mut Program) {
    if in_order(program) && !program.lines.is_empty() {
        let at = random.below(program.lines.len());
        remove(random, program, at);
    }
}

/// Adds a line to a module; jumps mostly keep their targets.
fn insert_line(random: &mut Random, program: &mut Program) {
    if !in_order(program) || program.lines.len() >= 2048 {
        return;
    }
    let module = random.below(MODULES);
    let at = random.between(first_line(program, module), first_line(program, module + 1));
    if random.percent(85) {
        let onto = u16::from(random.percent(50));
        let jumps = program.lines.iter_mut().filter(|line| is_jump(line));
        let later = jumps.filter(|jump| jump.operand as usize + onto as usize > at);
        later.for_each(|jump| jump.operand = jump.operand.saturating_add(1));
    }
    let line = inserted_line(random, program, at);
    program.lines.insert(at, line);
    program.lengths[module] += 1;
}

/// A line that is likely to break one of the rules where it is put.
fn inserted_line(random: &mut Random, program: &Program, at: usize) -> Line {
    let frame = Frame {
        bytes: program.data.len(),
        activation: program.activation.clone(),
    };
    let mechanism = random.below(frame.activation.len() + 1);
    match random.below(8) {
        0 | 1 => Line::new(1, 0, frame.bit(random)),
        2 => Line::new(random.pick(&[2, 3, 4]), 2, 0),
        3 => Line::new(random.pick(&[11, 12, 13]), 0, 0),
        4 => Line::new(24, 0, mechanism),
        5 => Line::new(random.pick(&[22, 23]), 0, mechanism),
        6 => Line::new(random.pick(&[9, 10]), 0, at + random.below(8)),
        _ => loose_line(random, &frame, program.lines.len()),
    }
}

/// The lines for which the test holds.
fn lines_where(program: &Program, test: impl Fn(&Line) -> bool) -> Vec<usize> {
    (0..program.lines.len())
        .filter(|&at| test(&program.lines[at]))
        .collect()
}

fn change_jump(random: &mut Random, program: &mut Program) {
    let jumps = lines_where(program, is_jump);
    if jumps.is_empty() {
        return insert_line(random, program);
    }
    let at = random.pick(&jumps);
    let lines = program.lines.len();
    let target = match random.below(6) {
        0 => at,
        1 => at + 1,
        2 => random.below(lines + 2),
        3 => first_line(program, random.below(program.lengths.len() + 1)),
        4 => program.lines[at].operand as usize + 1,
        _ => (program.lines[at].operand as usize).saturating_sub(1),
    };
    program.lines[at].operand = target as u16;
}

fn swap_lines(random: &mut Random, program: &mut Program) {
    if program.lines.len() >= 2 {
        let first = random.below(program.lines.len() - 1);
        let second = if random.percent(60) {
            first + 1
        } else {
            random.below(program.lines.len())
        };
        program.lines.swap(first, second);
    }
}

/// Moves the border of two neighbouring modules.
fn move_border(random: &mut Random, program: &mut Program) {
    let module = random.below(program.lengths.len() - 1);
    let (from, to) = if random.percent(50) {
        (module, module + 1)
    } else {
        (module + 1, module)
    };
    let lines = random.below(4).min(program.lengths[from] as usize) as u16;
    program.lengths[from] -= lines;
    program.lengths[to] = program.lengths[to].saturating_add(lines);
}

fn change_length(random: &mut Random, program: &mut Program) {
    let module = random.below(program.lengths.len());
    let length = program.lengths[module];
    program.lengths[module] =
        random.pick(&[length.wrapping_add(1), length.wrapping_sub(1), 0xffff, 0]);
}

fn change_activation(random: &mut Random, program: &mut Program) {
    if program.activation.is_empty() {
        program
            .activation
            .push(random.below(8 * program.data.len() + 1) as u16);
        return;
    }
    let k = random.below(program.activation.len());
    let bits = 8 * program.data.len();
    match random.below(4) {
        0 => program.activation[k] = bits as u16,
        1 => program.activation[k] = random.below(65_536) as u16,
        2 => program.activation[k] = random.below(bits) as u16,
        _ => drop(program.activation.remove(k)),
    }
}

/// Takes a MECH_INIT away, or lets a jump lead past it.
fn drop_reset(random: &mut Random, program: &mut Program) {
    let resets = lines_where(program, |line| line.code == 24);
    if resets.is_empty() || !in_order(program) {
        return;
    }
    let at = random.pick(&resets);
    match random.below(3) {
        0 => remove(random, program, at),
        1 => program.lines[at] = Line::new(9, 0, at + 1),
        _ => program.lines[at].operand = random.below(program.activation.len().max(1)) as u16,
    }
}

/// Changes a MECH_BEGIN or MECH_END.
fn change_mechanism_line(random: &mut Random, program: &mut Program) {
    let ends = lines_where(program, |line| matches!(line.code, 22 | 23));
    if ends.is_empty() {
        return;
    }
    let at = random.pick(&ends);
    match random.below(4) {
        0 => program.lines[at].code ^= 1,
        1 => program.lines[at].operand = random.below(program.activation.len() + 1) as u16,
        2 => program.lines[at] = Line::new(5, 0, 0),
        _ if at + 1 < program.lines.len() => program.lines.swap(at, at + 1),
        _ => {}
    }
}

/// Writes another number at one of the four counts.
fn spoil_count(random: &mut Random, program: &Program, image: &mut [u8]) {
    let mechanisms = 2 + program.data.len();
    let modules = mechanisms + 2 + 2 * program.activation.len();
    let lines = modules + 2 + 2 * program.lengths.len();
    let offset = random.pick(&[0, mechanisms, modules, lines]);
    let old = u16::from_le_bytes([image[offset], image[offset + 1]]);
    let random_count = random.below(65_536) as u16;
    let limits = [0, 16, 1025, 33, 6, 8, 2049, random_count];
    let near = [old.wrapping_add(1), old.wrapping_sub(1)];
    let new = if random.percent(50) {
        random.pick(&limits)
    } else {
        random.pick(&near)
    };
    image[offset..offset + 2].copy_from_slice(&new.to_le_bytes());
}

/// Changes some bytes anywhere.
fn damage(random: &mut Random, image: &mut [u8]) {
    for _ in 0..random.between(1, 6) {
        let at = random.below(image.len());
        image[at] = match random.below(3) {
            0 => image[at] ^ 1 << random.below(8),
            1 => random.byte(),
            _ => image[at].wrapping_add(1),
        };
    }
}

/// Cuts an image short or lengthens it.
fn resize(random: &mut Random, image: &mut Vec<u8>) {
    match random.below(4) {
        0 => {
            let more = random.between(1, 40);
            image.extend((0..more).map(|_| random.byte()));
        }
        1 => image.truncate(image.len() - random.between(1, 6)),
        2 => image.truncate(random.below(image.len().min(64))),
        _ => image.truncate(random.below(image.len())),
    }
}

/// 1 to 40 calls; one list in a hundred is malformed.
fn calls(random: &mut Random) -> Vec<u8> {
    let count = random.between(1, 40);
    let weights = random.pick(&[[60, 6, 17, 17], [85, 2, 6, 7], [25, 25, 25, 25]]);
    let mut calls: Vec<u8> = if random.percent(40) {
        block_calls(random, count)
    } else {
        (0..count)
            .map(|_| random.weighted(&weights) as u8)
            .collect()
    };
    if random.percent(30) {
        calls[count - 1] = 4;
    }
    if random.percent(1) {
        calls[random.below(count)] = random.pick(&[4, 5, 255]);
    }
    calls
}

/// Calls as a block has them: block start, scans, position report, scans.
fn block_calls(random: &mut Random, count: usize) -> Vec<u8> {
    let mut calls = Vec::new();
    while calls.len() < count {
        for mark in [2, 3] {
            calls.push(mark);
            calls.extend(vec![0; random.between(0, 5)]);
        }
        if random.percent(15) {
            calls.push(1);
        }
    }
    calls.truncate(count);
    calls
}

/// Rows in rising order of their scan numbers.
fn rows(random: &mut Random) -> Vec<Row> {
    let mut scan = 0u32;
    let count = random.below(50);
    let mut rows = Vec::new();
    for _ in 0..count {
        rows.push(Row {
            scan,
            port: port(random),
            byte: row_byte(random),
        });
        scan = scan.saturating_add(match random.below(100) {
            0..=49 => 0,
            50..=97 => random.between(1, 3) as u32,
            98 => 1000,
            _ => u32::MAX,
        });
    }
    rows
}

fn port(random: &mut Random) -> u8 {
    match random.below(20) {
        0 => random.between(8, 255) as u8,
        1..=12 => random.below(3) as u8,
        _ => random.below(8) as u8,
    }
}

fn row_byte(random: &mut Random) -> u8 {
    match random.below(4) {
        0 => 0,
        1 => 255,
        _ => random.byte(),
    }
}
