//! Whole kW near a solver's solution that keep every row.

use crate::case::Case;
use crate::random::Random;
use crate::rows::{index_of_cleared, RowName};
use crate::solve::programme::Programme;
use crate::units::Kw;

/// Steps of the search before it gives up.
const MOST_STEPS: usize = 1500;
/// Steps for which a quantity just changed is left alone.
const REST: usize = 6;

/// A quantity, and a kW more or less of it.
#[derive(Clone, Copy, Debug, PartialEq, Eq)]
struct Change {
    index: usize,
    by: Kw,
}

/// A schedule on its way to keeping every row.
struct Search<'a> {
    programme: &'a Programme,
    /// The rows each quantity stands in, with its coefficient there.
    columns: Vec<Vec<(usize, i64)>>,
    amounts: Vec<Kw>,
    slacks: Vec<i64>,
    /// The step from which each quantity may change again.
    free_from: Vec<usize>,
}

impl Search<'_> {
    fn new(programme: &Programme, amounts: Vec<Kw>) -> Search<'_> {
        let column = |index: usize| {
            let rows = programme.rows.iter().enumerate();
            rows.map(|(row, it)| (row, it.coefficients[index]))
                .filter(|(_, coefficient)| *coefficient != 0)
                .collect()
        };
        let slacks = programme.rows.iter().map(|row| row.slack(&amounts) as i64).collect();
        Search {
            programme,
            columns: (0..amounts.len()).map(column).collect(),
            free_from: vec![0; amounts.len()],
            amounts,
            slacks,
        }
    }

    /// How far a row is from being kept, in thousandths of a kW: rows count
    /// kW, but for flowgates, which count thousandths already.
    fn shortfall(&self, row: usize, slack: i64) -> i64 {
        let short = if self.programme.rows[row].equation { slack.abs() } else { (-slack).max(0) };
        if self.programme.is_flowgate(row) {
            short
        } else {
            1000 * short
        }
    }

    fn broken_rows(&self) -> Vec<usize> {
        (0..self.slacks.len()).filter(|row| self.shortfall(*row, self.slacks[*row]) > 0).collect()
    }

    fn allowed(&self, change: Change, step: usize) -> bool {
        let amount = self.amounts[change.index] + change.by;
        self.free_from[change.index] <= step
            && (0..=self.programme.bounds[change.index]).contains(&amount)
    }

    /// What a change adds to the shortfall of all rows.
    fn effect(&self, change: Change) -> i64 {
        let of_row = |(row, coefficient): &(usize, i64)| {
            let slack = self.slacks[*row];
            self.shortfall(*row, slack + coefficient * change.by) - self.shortfall(*row, slack)
        };
        self.columns[change.index].iter().map(of_row).sum()
    }

    fn make(&mut self, change: Change) {
        self.amounts[change.index] += change.by;
        for (row, coefficient) in &self.columns[change.index] {
            self.slacks[*row] += coefficient * change.by;
        }
    }

    fn undo(&mut self, change: Change) {
        self.make(Change { by: -change.by, ..change });
    }

    /// Every allowed change of one quantity by a kW.
    fn changes(&self, step: usize) -> Vec<Change> {
        (0..self.amounts.len())
            .flat_map(|index| [Change { index, by: 1 }, Change { index, by: -1 }])
            .filter(|change| self.allowed(*change, step))
            .collect()
    }

    /// Whether a change brings the row closer to being kept.
    fn helps(&self, change: Change, row: usize) -> bool {
        let coefficient = self.programme.rows[row].coefficients[change.index];
        let slack = self.slacks[row];
        self.shortfall(row, slack + coefficient * change.by) < self.shortfall(row, slack)
    }

    /// The best that a helpful change can do for the row, alone or with one
    /// more change at its side. Equals are drawn among.
    fn best_for(&mut self, row: usize, step: usize, random: &mut Random) -> Vec<Change> {
        let changes = self.changes(step);
        let helpful: Vec<Change> =
            changes.iter().copied().filter(|change| self.helps(*change, row)).collect();
        let mut best: (i64, Vec<Change>) = (i64::MAX, Vec::new());
        let mut consider = |effect: i64, chosen: &[Change]| {
            if effect < best.0 || (effect == best.0 && random.percent(20)) {
                best = (effect, chosen.to_vec());
            }
        };
        for first in helpful {
            let effect = self.effect(first);
            consider(effect, &[first]);
            self.make(first);
            for second in changes.iter().copied().filter(|second| second.index != first.index) {
                consider(effect + self.effect(second), &[first, second]);
            }
            self.undo(first);
        }
        best.1
    }
}

/// The schedule, if it keeps every row; else one near it that does. The search
/// takes a broken row and the best change or two for it, even if others break,
/// and lets what it changed rest for some steps so as not to go in circles.
pub fn repaired(programme: &Programme, amounts: Vec<Kw>) -> Result<Vec<Kw>, String> {
    let mut search = Search::new(programme, amounts);
    let mut random = Random::new(1);
    for step in 0..MOST_STEPS {
        let broken = search.broken_rows();
        if broken.is_empty() {
            return Ok(search.amounts);
        }
        let row = random.pick(&broken);
        for change in search.best_for(row, step, &mut random) {
            search.make(change);
            search.free_from[change.index] = step + REST;
        }
    }
    let row = search.broken_rows().first().map_or(0, |row| row + 1);
    Err(format!("no whole-kW schedule was found near the solver's; row {row} stays broken"))
}

/// Clears on each curve as much as the reserves bear; that never costs more.
pub fn cleared_to_the_full(case: &Case, programme: &Programme, mut amounts: Vec<Kw>) -> Vec<Kw> {
    for row in &programme.rows {
        if let RowName::Market(curve) = row.name {
            let spare = row.slack(&amounts) as Kw;
            let cleared = &mut amounts[index_of_cleared(case.version, curve)];
            *cleared = (*cleared + spare).min(case.curve_width(curve));
        }
    }
    amounts
}
