//! Tries the routes of small programs one by one, as they are defined, and
//! holds the search of the second reading against them.

use crate::making::Case;
use crate::reading::*;
use std::collections::{BTreeMap, BTreeSet};

/// Programs with more routes than this are left out.
const MOST_ROUTES: usize = 3000;

/// What all routes of a unit come to.
#[derive(Default)]
struct Found {
    routes: usize,
    most_steps: usize,
    /// The depths on arrival at each place.
    depths: BTreeMap<usize, BTreeSet<i32>>,
    /// Whether a route reaches the end and leaves a mechanism out.
    leaves_out: bool,
}

/// One route in the making.
#[derive(Clone)]
struct Route {
    place: usize,
    steps: usize,
    depth: i32,
    initialised: BTreeSet<usize>,
}

/// Goes all ways from where the route is; none where they are too many.
fn go(text: &Text, unit: Unit, route: Route, found: &mut Found) -> Option<()> {
    found
        .depths
        .entry(route.place)
        .or_default()
        .insert(route.depth);
    if route.place == text.span(unit).end {
        found.leaves_out |= route.initialised.len() < text.mechanisms();
        return stop(route.steps, found);
    }
    let op = text.ops[route.place];
    let mut after = Route {
        steps: route.steps + 1,
        ..route
    };
    match op {
        Op::Exit(stopping) => {
            stop(after.steps, found)?;
            if stopping == Stop::Always {
                return Some(());
            }
        }
        Op::Load { .. } if flag_forward(text, unit, route.place) => after.depth += 1,
        Op::Combine {
            with: Term::Cell, ..
        } => after.depth -= 1,
        Op::Begin(k) => after.steps += all(text, Unit::Mechanism(k))?.most_steps,
        Op::Reset(k) => {
            after.initialised.insert(k);
        }
        _ => {}
    }
    if let Op::Jump { target, .. } = op {
        go(
            text,
            unit,
            Route {
                place: target,
                ..after.clone()
            },
            found,
        )?;
    }
    go(
        text,
        unit,
        Route {
            place: text.following(route.place),
            ..after
        },
        found,
    )
}

fn stop(steps: usize, found: &mut Found) -> Option<()> {
    found.most_steps = found.most_steps.max(steps);
    found.routes += 1;
    (found.routes <= MOST_ROUTES).then_some(())
}

/// The text flag, found by going forward from the module's first line.
fn flag_forward(text: &Text, unit: Unit, line: usize) -> bool {
    let module = match unit {
        Unit::Module(module) => module,
        Unit::Mechanism(_) => MAIN,
    };
    let first = text.span(Unit::Module(module)).start;
    text.program.lines[first..line]
        .iter()
        .fold(false, |flag, line| match line.code {
            1 => true,
            22 | 23 | 6 | 9 | 10 | 8 | 11 | 12 | 13 => false,
            _ => flag,
        })
}

fn all(text: &Text, unit: Unit) -> Option<Found> {
    let mut found = Found::default();
    for place in text.beginnings(unit) {
        let route = Route {
            place,
            steps: 0,
            depth: 0,
            initialised: BTreeSet::new(),
        };
        go(text, unit, route, &mut found)?;
    }
    Some(found)
}

/// Whether the depths on arrival at a place break refusal 13.
fn breaks_13(text: &Text, unit: Unit, place: usize, depths: &BTreeSet<i32>) -> bool {
    let differ = depths.len() > 1;
    let at_end = place == text.span(unit).end;
    differ
        || depths.iter().any(|&depth| {
            if at_end {
                return depth != 0;
            }
            let line = text.program.lines[place];
            match (line.code, line.mode) {
                (1, _) => depth == 8 && flag_forward(text, unit, place),
                (2..=4, 2) => depth == 0,
                (11..=13 | 22 | 23, _) => depth != 0,
                _ => false,
            }
        })
}

/// The verdict on a formed program by all its routes; none where they are too
/// many. A refusal is its number and place.
fn by_routes(text: &Text) -> Option<Result<Certificate, (u8, usize)>> {
    let units: BTreeMap<Unit, Found> = text
        .units()
        .map(|unit| Some((unit, all(text, unit)?)))
        .collect::<Option<_>>()?;
    let bad_places = units.iter().flat_map(|(&unit, found)| {
        let places = found.depths.iter();
        places.filter(move |(&place, depths)| breaks_13(text, unit, place, depths))
    });
    if let Some((&place, _)) = bad_places.min_by_key(|(&place, _)| place) {
        return Some(Err((13, place)));
    }
    let module = |number| &units[&Unit::Module(number)];
    if let Some(number) = [INIT, CLEAR]
        .into_iter()
        .find(|&number| module(number).leaves_out)
    {
        return Some(Err((14, number)));
    }
    let depths = units
        .values()
        .flat_map(|found| found.depths.values().flatten());
    let blocks = module(BLOCK_INIT)
        .most_steps
        .max(module(BLOCK_DONE).most_steps);
    Some(Ok(Certificate {
        lines: text.program.lines.len(),
        stack: depths.max().map_or(0, |&depth| depth as usize),
        scan: module(INPUT).most_steps + blocks + module(MAIN).most_steps,
    }))
}

#[test]
fn verdicts_by_all_routes() {
    let mut compared: BTreeMap<u8, usize> = BTreeMap::new();
    for seed in 0..20_000 {
        let case = Case::new(1_000_000 + seed);
        let Ok(text) = form(&case.image) else {
            continue;
        };
        let Some(expected) = by_routes(&text) else {
            continue;
        };
        let verdict = judge(&case.image)
            .map(|(_, certificate)| certificate)
            .map_err(|refusal| (refusal.number, refusal.place));
        assert_eq!(verdict, expected, "seed {}", case.seed);
        *compared
            .entry(verdict.map_or_else(|refused| refused.0, |_| 0))
            .or_default() += 1;
    }
    for number in [0, 13, 14] {
        assert!(compared[&number] > 100, "too few of {number}: {compared:?}");
    }
}
