//! The linear programme of a case. Its columns are the listed quantities, its
//! rows the paper's, written 'at least'; a column costs grains a kW. So the
//! dual of each row is that row's price as the certificate wants it, in sign
//! and in unit.

use crate::accounts::{listed, Listed};
use crate::case::Case;
use crate::certificate::upper_bounds;
use crate::rows::{rows, Row, RowName};
use crate::standing::standings;
use crate::units::Kw;

const HIGHEST_ROW_PRICE: i64 = 400_000_000;
const HIGHEST_FLOWGATE_PRICE: i64 = 400_000;

#[derive(Clone, Debug)]
pub struct Programme {
    pub columns: Vec<Listed>,
    pub rows: Vec<Row>,
    /// Upper bounds of the quantities, in the order of places.
    pub bounds: Vec<Kw>,
    /// Whether a row may be missed at the highest price it can have. No dual
    /// then leaves the range of the certificate's prices.
    pub priced: bool,
}

impl Programme {
    pub fn of_case(case: &Case) -> Programme {
        let standings = standings(case);
        Programme {
            columns: listed(case, &standings),
            rows: rows(case, &standings),
            bounds: upper_bounds(case, &standings),
            priced: false,
        }
    }

    /// Whether a row, counted from 0, is a flowgate.
    pub fn is_flowgate(&self, row: usize) -> bool {
        matches!(self.rows[row].name, RowName::Flowgate(_))
    }

    /// Which rows, counted from 0, are flowgates.
    pub fn flowgate_rows(&self) -> impl Iterator<Item = usize> + '_ {
        (0..self.rows.len()).filter(|row| self.is_flowgate(*row))
    }

    pub fn coefficient(&self, row: usize, column: usize) -> i64 {
        self.rows[row].coefficients[self.columns[column].index]
    }

    /// Amounts in the order of places, each the nearest whole number within
    /// its bounds, from the values of the columns.
    pub fn rounded_amounts(&self, values: &[f64]) -> Vec<Kw> {
        let mut sums = vec![0.0; self.bounds.len()];
        for (column, value) in self.columns.iter().zip(values) {
            sums[column.index] += value;
        }
        sums.iter()
            .zip(&self.bounds)
            .map(|(sum, bound)| (sum.round() as Kw).clamp(0, *bound))
            .collect()
    }

    /// The range of a row's price in the certificate.
    pub fn price_range(&self, row: usize) -> (i64, i64) {
        match self.rows[row].name {
            RowName::Demand => (-HIGHEST_ROW_PRICE, HIGHEST_ROW_PRICE),
            RowName::Flowgate(_) => (0, HIGHEST_FLOWGATE_PRICE),
            RowName::Market(_) | RowName::Zone(..) | RowName::Of(..) => (0, HIGHEST_ROW_PRICE),
        }
    }

    /// Row prices from duals: the nearest whole number within their range.
    pub fn whole_prices(&self, duals: &[f64]) -> Vec<i64> {
        let whole = |(row, dual): (usize, &f64)| {
            let (least, most) = self.price_range(row);
            (dual.round() as i64).clamp(least, most)
        };
        duals.iter().enumerate().map(whole).collect()
    }

    /// The programme whose duals stay within the range of prices.
    pub fn priced(&self) -> Programme {
        Programme { priced: true, ..self.clone() }
    }

    /// The programme without its flowgate rows, each column paying or earning
    /// what those rows would have charged it at the given prices.
    pub fn with_flowgate_prices(&self, row_prices: &[i64]) -> Programme {
        let mut held = self.clone();
        for index in self.flowgate_rows() {
            for column in &mut held.columns {
                column.price -= row_prices[index] * self.rows[index].coefficients[column.index];
            }
            held.rows[index].coefficients.fill(0);
            held.rows[index].right = 0;
        }
        held
    }
}
