//! The worked examples of the pages, one test for each.

use crate::reading::*;
use crate::running::*;

/// Writes a line by its name; `l("LDR", 0, 5)` is `LDR 5`.
fn l(name: &str, mode: u8, operand: usize) -> Line {
    let code = match name {
        "LDR" => 1,
        "LA" => 2,
        "LO" => 3,
        "LX" => 4,
        "CA" => 5,
        "WR" => 6,
        "FL" => 7,
        "FL1" => 8,
        "JL0" => 9,
        "JL1" => 10,
        "EX" => 11,
        "EX0" => 12,
        "EX1" => 13,
        "LOD" => 16,
        "STO" => 17,
        "AD" => 19,
        "ABS" => 20,
        "GE" => 21,
        "MECH_BEGIN" => 22,
        "MECH_END" => 23,
        "MECH_INIT" => 24,
        _ => panic!("no line is named {name}"),
    };
    Line::new(code, mode, operand)
}

/// A program of D zero bytes, from the modules that have lines.
fn program(d: usize, activation: &[u16], modules: &[(usize, &[Line])]) -> Program {
    let mut lengths = vec![0; MODULES];
    let mut lines = Vec::new();
    for &(module, of_module) in modules {
        lengths[module] = of_module.len() as u16;
        lines.extend(of_module);
    }
    Program {
        data: vec![0; d],
        activation: activation.to_vec(),
        lengths,
        lines,
    }
}

fn null() -> Program {
    program(17, &[], &[])
}

fn gate_main() -> Vec<Line> {
    vec![
        l("LDR", 0, 0),
        l("FL1", 1, 136),
        l("MECH_BEGIN", 0, 0),
        l("FL", 1, 64),
        l("EX", 0, 0),
        l("LDR", 0, 1),
        l("EX0", 0, 0),
        l("FL", 0, 64),
        l("MECH_END", 0, 0),
    ]
}

fn gate_with(others: &[(usize, &[Line])]) -> Program {
    let main = gate_main();
    let mut modules: Vec<(usize, &[Line])> = vec![(MAIN, &main)];
    modules.extend(others);
    program(18, &[136], &modules)
}

fn gate() -> Program {
    let init = [l("MECH_INIT", 0, 0)];
    gate_with(&[(INIT, &init), (CLEAR, &init)])
}

fn verdict(image: &[u8]) -> Result<(usize, usize, usize), (u8, Layer, usize)> {
    match judge(image) {
        Ok((_, c)) => Ok((c.lines, c.stack, c.scan)),
        Err(r) => Err((r.number, r.layer, r.place)),
    }
}

fn refused_image(image: &[u8], number: u8, place: usize) {
    assert_eq!(verdict(image), Err((number, Layer::Image, place)));
}

fn refused_text(program: &Program, number: u8, place: usize) {
    assert_eq!(
        verdict(&program.encode()),
        Err((number, Layer::Text, place))
    );
}

fn accepted(program: &Program, lines: usize, stack: usize, scan: usize) {
    assert_eq!(verdict(&program.encode()), Ok((lines, stack, scan)));
}

fn text(program: &Program) -> Text {
    judge(&program.encode()).expect("the program is accepted").0
}

fn in_input(lines: &[Line]) -> Program {
    program(17, &[], &[(INPUT, lines)])
}

#[test]
fn null_image_and_its_beginnings() {
    let image = null().encode();
    assert_eq!(image.len(), 39);
    assert_eq!((image[0], image[21]), (0x11, 0x07));
    assert_eq!(verdict(&image), Ok((0, 0, 0)));
    for length in 0..39 {
        let place = match length {
            0..=1 => 0,
            2..=18 => 2,
            19..=20 => 19,
            21..=22 => 21,
            23..=36 => 23,
            _ => 37,
        };
        refused_image(&image[..length], 1, place);
    }
    for more in 1..5 {
        refused_image(&[image.clone(), vec![0; more]].concat(), 4, 39);
    }
}

#[test]
fn null_images_with_one_change() {
    refused_image(&program(16, &[], &[]).encode(), 2, 0);
    refused_image(&program(17, &[128; 33], &[]).encode(), 2, 19);
    refused_image(&program(17, &[136], &[]).encode(), 3, 21);
    for modules in [6, 8] {
        let changed = Program {
            lengths: vec![0; modules],
            ..null()
        };
        refused_image(&changed.encode(), 2, 21);
    }
    let too_long = Program {
        lines: vec![l("CA", 0, 0); 2049],
        ..null()
    };
    refused_image(&too_long.encode(), 2, 37);
    let mut image = null().encode();
    image[23] = 1;
    refused_image(&image, 5, 37);
    image.push(0);
    refused_image(&image, 4, 39);
}

#[test]
fn length_comes_before_records() {
    let image = program(17, &[136, 136], &[]).encode();
    refused_image(&image[..23], 1, 21);
}

#[test]
fn gate_image_byte_by_byte() {
    let bytes = "12 00 00 00 00 00 00 00 00 00 00 00 00 00 00 00
        00 00 00 00 01 00 88 00 07 00 00 00 00 00 00 00
        09 00 01 00 01 00 00 00 0b 00 01 00 00 00 08 01
        88 00 16 00 00 00 07 01 40 00 0b 00 00 00 01 00
        01 00 0c 00 00 00 07 00 40 00 17 00 00 00 18 00
        00 00 18 00 00 00";
    let image: Vec<u8> = bytes
        .split_whitespace()
        .map(|byte| u8::from_str_radix(byte, 16).unwrap())
        .collect();
    assert_eq!(gate().encode(), image);
    assert_eq!(verdict(&image), Ok((11, 0, 7)));
    assert_eq!(text(&gate()).program, gate());
}

#[test]
fn gate_flags_and_units() {
    let text = text(&gate());
    let flags: Vec<usize> = (0..11).filter(|&line| text.flag(line)).collect();
    assert_eq!(flags, [1, 6]);
    assert_eq!(text.span(Unit::Mechanism(0)), 3..9);
    assert_eq!(text.span(Unit::Module(MAIN)), 0..9);
    assert_eq!(text.owner(2), Some(Unit::Module(MAIN)));
    assert_eq!(text.owner(8), Some(Unit::Mechanism(0)));
    assert_eq!(text.owner(10), Some(Unit::Module(CLEAR)));
}

#[test]
fn gate_session() {
    let text = text(&gate());
    let rows = [
        Row {
            scan: 0,
            port: 0,
            byte: 1,
        },
        Row {
            scan: 2,
            port: 0,
            byte: 2,
        },
    ];
    let (mut session, first) = Session::start(&text, Cabinet::stimulus(&rows)).unwrap();
    assert_eq!(
        (first.answer, first.phase, first.points),
        (Answer::Done, 0, vec![0, 0, 3])
    );
    for (steps, terminal, bit_136, point) in [(5, 1, 1, 5), (5, 1, 1, 5), (7, 0, 0, 3)] {
        let view = session.call(Call::Scan).unwrap();
        assert_eq!(view.answer, Answer::Scanned { steps });
        assert_eq!(
            (view.terminals[0], view.data[17], view.points[2]),
            (terminal, bit_136, point)
        );
    }
}

#[test]
fn text_flag_examples() {
    let first = in_input(&[
        l("LDR", 0, 0),
        l("JL1", 0, 4),
        l("LDR", 0, 1),
        l("WR", 0, 64),
        l("LDR", 0, 2),
    ]);
    let text = text(&first);
    assert!(!text.flag(4));
    // Line 3 pushes on both ways, so a cell is left over at the end.
    let second = in_input(&[
        l("LDR", 0, 0),
        l("JL1", 0, 3),
        l("LDR", 0, 1),
        l("LDR", 0, 2),
    ]);
    refused_text(&second, 13, 4);
    let popped = [second.lines, vec![l("LA", 2, 0)]].concat();
    let (text, _) = judge(&in_input(&popped).encode()).unwrap();
    assert!(text.flag(3));
}

#[test]
fn width_one_numbers() {
    // Each row: data 24 to 27 is DR before, data 28 the number, a line, DR and RLO after.
    let cases = [
        (250u32, 10u8, l("AD", 1, 28), Some(4u32), None),
        (513, 10, l("AD", 1, 28), Some(11), None),
        (128, 0, l("ABS", 1, 0), Some(128), None),
        (255, 0, l("ABS", 1, 0), Some(1), None),
        (255, 0, l("GE", 1, 28), None, Some(0u8)),
        (0, 255, l("GE", 1, 28), None, Some(1)),
    ];
    for (before, number, line, dr, rlo) in cases {
        let view = numbers_view(before, &[number], line);
        assert_eq!(view.data[32..36], dr.unwrap_or(before).to_le_bytes());
        assert_eq!(view.data[40], rlo.unwrap_or(0));
    }
}

/// Runs a number line in INIT; DR after goes to 32, RLO to bit 0 of 40.
fn numbers_view(before: u32, number: &[u8], line: Line) -> View {
    let lines = [l("LOD", 4, 24), line, l("STO", 4, 32), l("WR", 0, 320)];
    let mut program = program(41, &[], &[(INIT, &lines)]);
    program.data[24..28].copy_from_slice(&before.to_le_bytes());
    program.data[28..28 + number.len()].copy_from_slice(number);
    let text = text(&program);
    let (_, view) = Session::start(&text, Cabinet::patch()).unwrap();
    view
}

#[test]
fn smallest_numbers_and_upper_bytes() {
    for (width, smallest) in [(1, 128), (2, 32_768), (4, 2_147_483_648)] {
        let view = numbers_view(smallest, &[], l("ABS", width, 0));
        assert_eq!(view.data[32..36], smallest.to_le_bytes());
    }
    let load = numbers_view(u32::MAX, &[1, 2, 3, 4], l("LOD", 2, 28));
    assert_eq!(load.data[32..36], [1, 2, 0, 0]);
    let store = numbers_view(0x0403_0201, &[9, 9, 9, 9], l("STO", 2, 28));
    assert_eq!(store.data[28..32], [1, 2, 9, 9]);
    let add = numbers_view(u32::MAX, &[2, 0, 0, 0], l("AD", 4, 28));
    assert_eq!(add.data[32..36], [1, 0, 0, 0]);
    let at_least = numbers_view(0x8000, &[0xff, 0x7f], l("GE", 2, 28));
    assert_eq!(at_least.data[40], 0);
}

#[test]
fn refusal_6_to_11() {
    let unknown = Line::new(18, 1, 0);
    refused_text(&in_input(&[l("CA", 0, 0), unknown]), 6, 1);
    refused_text(&in_input(&[l("LDR", 0, 136), unknown]), 6, 1);
    refused_text(&in_input(&[l("LOD", 4, 14)]), 7, 0);
    let open = [l("MECH_BEGIN", 0, 0), l("CA", 0, 0)];
    refused_text(&program(17, &[128], &[(MAIN, &open)]), 8, 2);
    refused_text(&in_input(&[l("CA", 0, 0), l("JL0", 0, 1)]), 9, 1);
    refused_text(&in_input(&[l("CA", 0, 0), l("EX", 0, 0)]), 10, 1);
    let init = [l("MECH_INIT", 0, 0)];
    refused_text(
        &gate_with(&[(INIT, &init), (CLEAR, &init), (HALT, &init)]),
        11,
        11,
    );
}

#[test]
fn refusal_14() {
    let init = [l("MECH_INIT", 0, 0)];
    refused_text(&gate_with(&[(INIT, &init)]), 14, 5);
    refused_text(&gate_with(&[]), 14, 4);
}

#[test]
fn small_certificates() {
    accepted(&null(), 0, 0, 0);
    accepted(&gate(), 11, 0, 7);
    let nine = [
        vec![l("LDR", 0, 0); 9],
        vec![l("LA", 2, 0); 8],
        vec![l("WR", 0, 64)],
    ]
    .concat();
    accepted(&in_input(&nine), 18, 8, 18);
    refused_text(&in_input(&[l("LDR", 0, 0); 10]), 13, 9);
    refused_text(
        &in_input(&[l("LDR", 0, 0), l("LDR", 0, 0), l("WR", 0, 0)]),
        13,
        3,
    );
    let differing = [
        l("LDR", 0, 0),
        l("JL1", 0, 4),
        l("LDR", 0, 0),
        l("LDR", 0, 0),
        l("LA", 2, 0),
    ];
    refused_text(&in_input(&differing), 13, 4);
    let ca = l("CA", 0, 0);
    let blocks = program(
        17,
        &[],
        &[
            (INPUT, &[ca]),
            (BLOCK_INIT, &[ca, l("EX", 0, 0)]),
            (BLOCK_DONE, &[ca, ca, ca]),
            (MAIN, &[ca]),
        ],
    );
    accepted(&blocks, 7, 0, 5);
}

#[test]
fn phases_session() {
    let block_init = [l("FL", 1, 128), l("EX", 0, 0)];
    let block_done = [l("FL", 0, 128)];
    let blocks = program(
        17,
        &[],
        &[(BLOCK_INIT, &block_init), (BLOCK_DONE, &block_done)],
    );
    let text = text(&blocks);
    let (mut session, view) = Session::start(&text, Cabinet::stimulus(&[])).unwrap();
    assert_eq!((view.answer, view.phase), (Answer::Done, 0));
    let expected = [
        (Call::PositionReport, Answer::Refused { number: 21 }, 0),
        (Call::BlockStart, Answer::Done, 1),
        (Call::BlockStart, Answer::Refused { number: 20 }, 1),
        (Call::Scan, Answer::Scanned { steps: 2 }, 1),
        (Call::Scan, Answer::Scanned { steps: 0 }, 2),
        (Call::PositionReport, Answer::Done, 3),
        (Call::Scan, Answer::Scanned { steps: 1 }, 0),
    ];
    for (call, answer, phase) in expected {
        let view = session.call(call).unwrap();
        assert_eq!((view.answer, view.phase), (answer, phase));
    }
}

#[test]
fn patch_session() {
    let toggling = program(17, &[], &[(MAIN, &[l("LDR", 1, 0), l("WR", 0, 64)])]);
    let text = text(&toggling);
    let (mut session, _) = Session::start(&text, Cabinet::patch()).unwrap();
    for terminal in [1, 0, 1, 0] {
        assert_eq!(session.call(Call::Scan).unwrap().terminals[0], terminal);
    }
}

#[test]
fn calls_and_records() {
    assert_eq!(calls_from(&[0, 4]), Some(vec![Call::Scan, Call::Halt]));
    assert_eq!(calls_from(&[4, 0]), None);
    assert_eq!(calls_from(&[5]), None);
    let text = text(&gate());
    let (_, view) = Session::start(&text, Cabinet::patch()).unwrap();
    assert_eq!(view.record().len(), View::record_size(&text));
    assert_eq!(view.record()[..7], [1, 0, 0, 0, 0, 0, 0]);
    assert_eq!(view.record()[15..21], [0, 0, 0, 0, 3, 0]);
}
