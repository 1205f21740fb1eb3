//! Judges an image file and runs scans of it with the inputs of the benchmarks.

use crate::reading::{judge, Text};
use crate::running::{Answer, Cabinet, Call, Fault, Row, Session};
use std::fs;

/// What is asked of an image file.
pub struct Task {
    pub path: String,
    pub scans: u32,
    /// The byte of all inputs; none for cycling inputs.
    pub constant: Option<u8>,
    /// Every so many scans a block is started; 0 for never.
    pub period: u32,
}

/// The verdict and, after scans, their steps and the checksum, in words.
pub fn perform(task: &Task) -> Result<String, String> {
    let image = fs::read(&task.path).map_err(|error| format!("{}: {error}", task.path))?;
    let (text, certificate) = judge(&image)
        .map_err(|r| format!("refused by {}, {:?}, at {}", r.number, r.layer, r.place))?;
    let mut said = format!(
        "accepted: LINES {}, STACK {}, SCAN {}",
        certificate.lines, certificate.stack, certificate.scan
    );
    if task.scans > 0 {
        let (steps, checksum) = scans(task, &text).map_err(|fault| format!("{fault:?}"))?;
        said += &format!("\nsteps {steps}\nchecksum {checksum:08x}");
    }
    Ok(said)
}

fn scans(task: &Task, text: &Text) -> Result<(u64, u32), Fault> {
    let (mut session, _) = Session::start(text, Cabinet::stimulus(&rows(task)))?;
    let mut hash = 0xcbf2_9ce4_8422_2325_u64;
    let mut all_steps = 0;
    for number in 0..task.scans {
        if task.period > 0 && number % task.period == 0 {
            session.call(Call::BlockStart)?;
        }
        if task.period > 0 && number % task.period == task.period / 2 {
            session.call(Call::PositionReport)?;
        }
        let view = session.call(Call::Scan)?;
        if let Answer::Scanned { steps } = view.answer {
            all_steps += u64::from(steps);
        }
        for byte in view.data {
            hash = (hash ^ u64::from(byte)).wrapping_mul(0x100_0000_01b3);
        }
    }
    Ok((all_steps, (hash ^ hash >> 32) as u32))
}

/// Eight rows for each scan.
fn rows(task: &Task) -> Vec<Row> {
    let ports = |scan: u32| (0..8u8).map(move |port| (scan, port));
    let cycling = |scan: u32, port: u8| scan.wrapping_mul(7).wrapping_add(u32::from(port) * 31);
    (0..task.scans)
        .flat_map(ports)
        .map(|(scan, port)| {
            let byte = task.constant.unwrap_or(cycling(scan, port) as u8);
            Row { scan, port, byte }
        })
        .collect()
}
