//! What must hold of the second reading and the second run by themselves.

use crate::making::Case;
use crate::reading::{judge, Certificate, Refusal, Text};
use crate::running::{calls_from, Answer, Cabinet, Session, View};

/// What the second reading and the second run say of a case.
pub struct Outcome {
    pub verdict: Result<Certificate, Refusal>,
    /// The session of an accepted program; none where its calls are malformed.
    pub session: Option<Ran>,
    /// The number of mechanisms of an accepted program.
    pub mechanisms: usize,
}

/// What a session came to.
pub struct Ran {
    pub views: Vec<View>,
    pub peak: usize,
    pub waits: usize,
}

#[cfg(feature = "station")]
impl Ran {
    /// All records, as the station writes them.
    pub fn records(&self) -> Vec<u8> {
        self.views.iter().flat_map(View::record).collect()
    }
}

/// Judges and runs a case, and says what does not hold.
pub fn outcome(case: &Case) -> Result<Outcome, String> {
    let (text, certificate) = match judge(&case.image) {
        Ok(accepted) => accepted,
        Err(refusal) => {
            check_place(case, refusal)?;
            return Ok(Outcome {
                verdict: Err(refusal),
                session: None,
                mechanisms: 0,
            });
        }
    };
    ensure(text.program.encode() == case.image, || {
        "the encoding is another image".into()
    })?;
    ensure(certificate.lines == text.program.lines.len(), || {
        "LINES is wrong".into()
    })?;
    ensure(certificate.stack <= 8, || "STACK is above 8".into())?;
    ensure(certificate.scan <= certificate.lines, || {
        "SCAN is above LINES".into()
    })?;
    let session = run(case, &text)?;
    if let Some(ran) = &session {
        check_session(&text, certificate, ran)?;
    }
    Ok(Outcome {
        verdict: Ok(certificate),
        session,
        mechanisms: text.mechanisms(),
    })
}

fn ensure(holds: bool, otherwise: impl FnOnce() -> String) -> Result<(), String> {
    if holds {
        Ok(())
    } else {
        Err(otherwise())
    }
}

/// A refusal's place is inside the image or the text, or a module number.
fn check_place(case: &Case, refusal: Refusal) -> Result<(), String> {
    let last = match refusal.number {
        1..=5 => case.image.len(),
        14 => 5,
        _ => 2048,
    };
    let known = [1, 2, 3, 4, 5, 6, 7, 8, 9, 10, 11, 13, 14].contains(&refusal.number);
    ensure(known && refusal.place <= last, || {
        format!("{refusal:?} is out of place")
    })
}

fn run(case: &Case, text: &Text) -> Result<Option<Ran>, String> {
    let Some(calls) = calls_from(&case.calls) else {
        return Ok(None);
    };
    let cabinet = if case.patch {
        Cabinet::patch()
    } else {
        Cabinet::stimulus(&case.rows)
    };
    let (mut session, first) =
        Session::start(text, cabinet).map_err(|fault| format!("{fault:?} at the start"))?;
    let mut views = vec![first];
    for call in calls {
        let at = views.len();
        views.push(
            session
                .call(call)
                .map_err(|fault| format!("{fault:?} at call {at}"))?,
        );
    }
    Ok(Some(Ran {
        views,
        peak: session.peak(),
        waits: session.waits(),
    }))
}

fn check_session(text: &Text, certificate: Certificate, ran: &Ran) -> Result<(), String> {
    ensure(ran.peak <= certificate.stack, || {
        format!("{} cells stacked, STACK is {}", ran.peak, certificate.stack)
    })?;
    for (at, view) in ran.views.iter().enumerate() {
        check_view(text, certificate, view).map_err(|what| format!("{what}, view {at}"))?;
    }
    for (at, pair) in ran.views.windows(2).enumerate() {
        check_refused(&pair[0], &pair[1]).map_err(|what| format!("{what}, call {at}"))?;
    }
    Ok(())
}

fn check_view(text: &Text, certificate: Certificate, view: &View) -> Result<(), String> {
    if let Answer::Scanned { steps } = view.answer {
        let most = certificate.scan;
        ensure(steps as usize <= most, || {
            format!("{steps} steps, SCAN is {most}")
        })?;
    }
    ensure(view.phase <= 3, || "the phase is above 3".into())?;
    ensure(view.record().len() == View::record_size(text), || {
        "a record has another size".into()
    })?;
    ensure(view.terminals == view.data[8..16], || {
        "terminals and outputs differ".into()
    })?;
    let units = text.units().filter(|unit| unit.is_sequential());
    for (unit, point) in units.zip(&view.points) {
        let may_begin = text.beginnings(unit).contains(point);
        ensure(may_begin, || format!("{unit:?} has its point at {point}"))?;
    }
    Ok(())
}

/// A refused call leaves everything as it was.
fn check_refused(before: &View, after: &View) -> Result<(), String> {
    let refused = matches!(after.answer, Answer::Refused { .. });
    let unchanged = View {
        answer: after.answer,
        ..before.clone()
    } == *after;
    ensure(!refused || unchanged, || {
        "a refused call changed something".into()
    })
}
