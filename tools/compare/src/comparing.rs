//! Compares what the station says of a case with the second reading.

use crate::checks::Outcome;
use crate::making::Case;
use crate::station::{self, Verdict, VERDICT};

/// Room for the records of a session that is to be turned down.
const SOME_ROOM: usize = 65_536;

/// What the boundary promises apart from any case.
pub fn check_boundary() -> Result<(), String> {
    let null = crate::reading::Program {
        data: vec![0; 17],
        activation: vec![],
        lengths: vec![0; 7],
        lines: vec![],
    }
    .encode();
    let answer = station::verdict_into(&null, &mut [0; VERDICT - 1]);
    ensure(answer == 0, || {
        format!("station_verdict answers {answer} with too little room")
    })?;
    let record = 3 + 4 + 8 + 4 + 17;
    let short = station::run(&null, &[0], &[], true, 2 * record - 1);
    ensure(short.is_none(), || {
        "station_run writes into too little room".into()
    })
}

fn ensure(holds: bool, otherwise: impl FnOnce() -> String) -> Result<(), String> {
    if holds {
        Ok(())
    } else {
        Err(otherwise())
    }
}

/// Compares verdict, place and certificate, and then the session.
pub fn compare(case: &Case, outcome: &Outcome) -> Result<(), String> {
    let ours = Verdict::of(outcome.verdict);
    let theirs = station::verdict(&case.image)?;
    ensure(ours == theirs, || {
        format!("verdict\n  reading: {ours:?}\n  station: {theirs:?}")
    })?;
    let expected = outcome.session.as_ref().map(|ran| ran.records());
    let room = expected.as_ref().map_or(SOME_ROOM, Vec::len);
    let got = station::run(&case.image, &case.calls, &case.rows, case.patch, room);
    ensure(expected == got, || {
        difference(outcome, expected.as_deref(), got.as_deref())
    })
}

/// Says at which call two sessions differ, with both records.
fn difference(outcome: &Outcome, expected: Option<&[u8]>, got: Option<&[u8]>) -> String {
    let (Some(expected), Some(got)) = (expected, got) else {
        let said = |records: Option<&[u8]>| match records {
            Some(records) => format!("{} bytes of records", records.len()),
            None => "no records".to_string(),
        };
        return format!(
            "session\n  reading: {}\n  station: {}",
            said(expected),
            said(got)
        );
    };
    let views = outcome.session.as_ref().map_or(1, |ran| ran.views.len());
    let size = expected.len() / views;
    let ours: Vec<&[u8]> = expected.chunks(size).collect();
    let theirs: Vec<&[u8]> = got.chunks(size).collect();
    let first = (0..views)
        .find(|&at| ours.get(at) != theirs.get(at))
        .unwrap_or(0);
    let mechanisms = outcome.mechanisms;
    let shown = |records: &[&[u8]]| {
        records
            .get(first)
            .map_or("no record".to_string(), |record| show(record, mechanisms))
    };
    let when = if first == 0 {
        "the start".to_string()
    } else {
        format!("call {first}")
    };
    format!(
        "record of {when}\n  reading: {}\n  station: {}",
        shown(&ours),
        shown(&theirs)
    )
}

/// A record in words.
fn show(record: &[u8], mechanisms: usize) -> String {
    let data = 15 + 2 * (2 + mechanisms);
    if record.len() < data {
        return format!("cut short: {record:?}");
    }
    let kind = ["scanned", "done", "refused"]
        .get(record[0] as usize)
        .unwrap_or(&"unknown");
    let steps = u32::from_le_bytes(record[3..7].try_into().unwrap());
    let points: Vec<u16> = record[15..data]
        .chunks(2)
        .map(|two| u16::from_le_bytes([two[0], two[1]]))
        .collect();
    format!(
        "{kind}, rule {}, phase {}, steps {steps}, terminals {:?}, points {points:?}, data {:?}",
        record[1],
        record[2],
        &record[7..15],
        &record[data..]
    )
}
