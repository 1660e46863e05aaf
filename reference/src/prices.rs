//! Locational and zone prices, in thousandths of a cent.

use crate::accounts::reported;
use crate::case::Curve;
use crate::certificate::Accepted;
use crate::refusal::Failure;
use crate::rows::RowName;

/// A zone's market clearing prices.
#[derive(Clone, Copy, Debug, PartialEq, Eq)]
pub struct ZonePrices {
    pub regulating: i64,
    pub spinning: i64,
    pub supplemental: i64,
    pub short_term: i64,
}

impl ZonePrices {
    pub fn in_order(self) -> [i64; 4] {
        [self.regulating, self.spinning, self.supplemental, self.short_term]
    }
}

/// The LMP of each resource: row 1's price less the sum, over flowgates, of
/// price times shift factor. It may be negative.
pub fn lmps(accepted: &Accepted) -> Result<Vec<i64>, Failure> {
    let Accepted { case, rows, certificate, .. } = accepted;
    let energy_price = i128::from(row_price(accepted, RowName::Demand));
    let mut prices = vec![energy_price; case.resources.len()];
    for (row, row_price) in rows.iter().zip(&certificate.row_prices) {
        if let RowName::Flowgate(flowgate) = row.name {
            for (price, factor) in prices.iter_mut().zip(&case.flowgates[flowgate].factors) {
                *price -= i128::from(*row_price) * i128::from(*factor);
            }
        }
    }
    prices.into_iter().map(|price| reported("an LMP", price)).collect()
}

fn row_price(accepted: &Accepted, name: RowName) -> i64 {
    let mut priced = accepted.rows.iter().zip(&accepted.certificate.row_prices);
    priced.find(|(row, _)| row.name == name).map_or(0, |(_, price)| *price)
}

/// Each zone's prices; every one adds market row and zone row.
pub fn zone_prices(accepted: &Accepted) -> Vec<ZonePrices> {
    let zone_prices = |zone: usize| {
        let both = |curve: Curve| {
            row_price(accepted, RowName::Market(curve))
                + row_price(accepted, RowName::Zone(zone, curve))
        };
        let operating = both(Curve::Operating);
        let regulating_plus_spinning = both(Curve::RegulatingPlusSpinning);
        let regulating = both(Curve::Regulating);
        ZonePrices {
            regulating: operating + regulating_plus_spinning + regulating,
            spinning: operating + regulating_plus_spinning,
            supplemental: operating,
            short_term: both(Curve::ShortTerm),
        }
    };
    (0..accepted.case.counts.zones).map(zone_prices).collect()
}
