//! Cost, bound, gap and the charges that add up to the gap.

use crate::case::{Case, Curve, Resource, Step};
use crate::certificate::Accepted;
use crate::layout::{Counts, Version, CURVE_STEPS, ENERGY_STEPS};
use crate::refusal::Failure;
use crate::rows::{index_of, index_of_cleared, Row};
use crate::standing::{Product, Standing};
use crate::units::{Cents, Grains, Kw, Thousandths, THOUSAND};

/// What is priced and charged on its own: a step, or a quantity without steps.
#[derive(Clone, Copy, Debug, PartialEq, Eq)]
pub struct Listed {
    /// The quantity whose coefficients it has, as an index from 0.
    pub index: usize,
    /// What a kW of it costs; a curve step earns, so its price is below 0.
    pub price: Thousandths,
    pub upper_bound: Kw,
}

/// Every listed quantity in the order of the charges: per resource its energy
/// steps, then its other products; then the curve steps.
pub fn listed(case: &Case, standings: &[Standing]) -> Vec<Listed> {
    let version = case.version;
    let mut list = Vec::new();
    for (resource, (offer, standing)) in case.resources.iter().zip(standings).enumerate() {
        for step in &offer.steps {
            list.push(Listed {
                index: index_of(version, resource, Product::Energy),
                price: THOUSAND * step.price,
                upper_bound: if standing.is_online() { step.width } else { 0 },
            });
        }
        for product in Product::beside_energy(version) {
            list.push(Listed {
                index: index_of(version, resource, product),
                price: THOUSAND * offer_price(offer, product),
                upper_bound: standing.bound(product),
            });
        }
    }
    for curve in Curve::of(version) {
        for step in &case.curves[curve as usize] {
            list.push(Listed {
                index: index_of_cleared(version, curve),
                price: -THOUSAND * step.price,
                upper_bound: step.width,
            });
        }
    }
    list
}

impl Counts {
    /// Rows and listed quantities.
    pub fn charge_count(self, version: Version) -> usize {
        let of_resource = ENERGY_STEPS + Product::beside_energy(version).count();
        let curve_steps = CURVE_STEPS * Curve::of(version).count();
        self.row_count(version) + of_resource * self.resources + curve_steps
    }
}

/// What a resource asks for a product; its energy has a price a step.
fn offer_price(offer: &Resource, product: Product) -> Cents {
    match product {
        Product::Regulating => offer.regulating_price,
        Product::Contingency => offer.contingency_price,
        Product::OfflineShortTerm => offer.offline_short_term_price,
        Product::Energy | Product::OnlineShortTerm => 0,
    }
}

/// What fills each step when they are filled in order.
fn fill(steps: &[Step], amount: Kw) -> Vec<Kw> {
    let mut left = amount;
    steps
        .iter()
        .map(|step| {
            let filled = left.min(step.width);
            left -= filled;
            filled
        })
        .collect()
}

/// The amount of each listed quantity under a schedule, in the same order.
pub fn listed_amounts(case: &Case, amounts: &[Kw]) -> Vec<Kw> {
    let version = case.version;
    let mut list = Vec::new();
    for (resource, offer) in case.resources.iter().enumerate() {
        let of = |product| amounts[index_of(version, resource, product)];
        list.extend(fill(&offer.steps, of(Product::Energy)));
        list.extend(Product::beside_energy(version).map(of));
    }
    for curve in Curve::of(version) {
        let cleared = amounts[index_of_cleared(version, curve)];
        list.extend(fill(&case.curves[curve as usize], cleared));
    }
    list
}

/// The cost of a schedule, from its quantities and the case alone.
pub fn cost(listed: &[Listed], listed_amounts: &[Kw]) -> Grains {
    listed
        .iter()
        .zip(listed_amounts)
        .map(|(item, amount)| i128::from(item.price) * i128::from(*amount))
        .sum()
}

/// Sum over all rows of row price times coefficient, for each quantity.
fn row_values(rows: &[Row], row_prices: &[i64], quantities: usize) -> Vec<Grains> {
    let mut values = vec![0; quantities];
    for (row, price) in rows.iter().zip(row_prices) {
        for (value, coefficient) in values.iter_mut().zip(&row.coefficients) {
            *value += i128::from(*price) * i128::from(*coefficient);
        }
    }
    values
}

/// What a certificate says of its schedule's cost.
#[derive(Clone, Debug, PartialEq, Eq)]
pub struct Accounts {
    pub cost: i64,
    pub bound: i64,
    pub gap: i64,
    /// Of the rows, then of the listed quantities.
    pub charges: Vec<i64>,
}

pub fn accounts(accepted: &Accepted) -> Result<Accounts, Failure> {
    let Accepted { case, standings, rows, certificate } = accepted;
    let listed = listed(case, standings);
    let amounts = listed_amounts(case, &certificate.amounts);
    let values = row_values(rows, &certificate.row_prices, certificate.amounts.len());

    let cost = cost(&listed, &amounts);
    let mut bound: Grains = 0;
    let mut charges: Vec<Grains> = Vec::new();
    for (row, price) in rows.iter().zip(&certificate.row_prices) {
        bound += i128::from(*price) * i128::from(row.right);
        charges.push(i128::from(*price) * row.slack(&certificate.amounts));
    }
    for (item, amount) in listed.iter().zip(&amounts) {
        let net_price = i128::from(item.price) - values[item.index];
        let least = (net_price * i128::from(item.upper_bound)).min(0);
        bound += least;
        charges.push(net_price * i128::from(*amount) - least);
    }

    Ok(Accounts {
        cost: reported("the cost", cost)?,
        bound: reported("the bound", bound)?,
        gap: reported("the gap", cost - bound)?,
        charges: charges
            .into_iter()
            .map(|charge| reported("a charge", charge))
            .collect::<Result<_, _>>()?,
    })
}

/// A number as it is reported, if it fits.
pub fn reported(what: &'static str, number: Grains) -> Result<i64, Failure> {
    i64::try_from(number).map_err(|_| Failure::DoesNotFit(what))
}
