//! Counts what the cases covered.

use crate::checks::{Outcome, Ran};
use crate::making::{Case, Kind};
use crate::reading::Certificate;
use crate::running::Answer;
use std::collections::BTreeMap;
use std::fmt;

/// Counters over all cases.
#[derive(Default)]
pub struct Stats {
    cases: usize,
    kinds: BTreeMap<Kind, (usize, usize)>,
    refusals: BTreeMap<u8, usize>,
    stacks: BTreeMap<usize, usize>,
    peaks: BTreeMap<usize, usize>,
    mechanisms: BTreeMap<usize, usize>,
    phases: BTreeMap<u8, usize>,
    answers: BTreeMap<String, usize>,
    calls: usize,
    malformed: usize,
    patched: usize,
    waiting: usize,
    moved_points: usize,
    full_scans: usize,
    most_lines: usize,
    most_steps: usize,
    most_scan: usize,
}

impl Stats {
    pub fn note(&mut self, case: &Case, outcome: &Outcome) {
        self.cases += 1;
        let kind = self.kinds.entry(case.kind).or_default();
        kind.0 += 1;
        match outcome.verdict {
            Ok(certificate) => {
                kind.1 += 1;
                self.note_accepted(case, outcome, certificate);
            }
            Err(refusal) => *self.refusals.entry(refusal.number).or_default() += 1,
        }
    }

    fn note_accepted(&mut self, case: &Case, outcome: &Outcome, certificate: Certificate) {
        *self.stacks.entry(certificate.stack).or_default() += 1;
        *self.mechanisms.entry(outcome.mechanisms).or_default() += 1;
        self.most_lines = self.most_lines.max(certificate.lines);
        self.most_scan = self.most_scan.max(certificate.scan);
        match &outcome.session {
            Some(ran) => {
                self.patched += usize::from(case.patch);
                self.note_session(ran, certificate.scan);
            }
            None => self.malformed += 1,
        }
    }

    fn note_session(&mut self, ran: &Ran, scan: usize) {
        *self.peaks.entry(ran.peak).or_default() += 1;
        self.waiting += usize::from(ran.waits > 0);
        let first = &ran.views[0].points;
        self.moved_points += usize::from(ran.views.iter().any(|view| view.points != *first));
        let mut full = false;
        for view in &ran.views {
            self.calls += 1;
            *self.phases.entry(view.phase).or_default() += 1;
            let name = match view.answer {
                Answer::Scanned { steps } => {
                    full |= steps as usize == scan && scan > 0;
                    self.most_steps = self.most_steps.max(steps as usize);
                    "scanned".to_string()
                }
                Answer::Done => "done".to_string(),
                Answer::Refused { number } => format!("refused by {number}"),
            };
            *self.answers.entry(name).or_default() += 1;
        }
        self.full_scans += usize::from(full);
    }
}

impl fmt::Display for Stats {
    fn fmt(&self, out: &mut fmt::Formatter<'_>) -> fmt::Result {
        let accepted: usize = self.kinds.values().map(|kind| kind.1).sum();
        let share = 100.0 * accepted as f64 / self.cases.max(1) as f64;
        writeln!(out, "accepted: {accepted} of {} ({share:.1} %)", self.cases)?;
        for (kind, (made, accepted)) in &self.kinds {
            writeln!(out, "  {kind:?}: {made} made, {accepted} accepted")?;
        }
        writeln!(out, "refusals by number: {:?}", self.refusals)?;
        writeln!(out, "accepted by STACK: {:?}", self.stacks)?;
        writeln!(out, "sessions by cells really stacked: {:?}", self.peaks)?;
        writeln!(out, "accepted by mechanisms: {:?}", self.mechanisms)?;
        writeln!(out, "views by phase: {:?}", self.phases)?;
        writeln!(out, "answers: {:?}", self.answers)?;
        writeln!(
            out,
            "views: {}, sessions with malformed calls: {}",
            self.calls, self.malformed
        )?;
        writeln!(out, "sessions with the patch cabinet: {}", self.patched)?;
        writeln!(out, "sessions with a wait: {}", self.waiting)?;
        writeln!(
            out,
            "sessions in which a point moved: {}",
            self.moved_points
        )?;
        writeln!(
            out,
            "sessions with a scan of exactly SCAN steps: {}",
            self.full_scans
        )?;
        writeln!(
            out,
            "most LINES {}, greatest SCAN {}, most steps of a scan {}",
            self.most_lines, self.most_scan, self.most_steps
        )
    }
}
