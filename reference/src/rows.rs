//! The rows, each a full vector of coefficients over every quantity of a
//! schedule. All are written 'at least': quantities on the left, figures of
//! the case alone on the right. The version says which quantities and rows there
//! are; what stands in them does not ask for it.

use crate::case::{Case, Curve};
use crate::layout::{Counts, Version};
use crate::standing::{Product, Standing};

/// One quantity of a schedule.
#[derive(Clone, Copy, Debug, PartialEq, Eq)]
pub enum Quantity {
    Cleared(Curve),
    /// A resource, counted from 0, and which of its quantities.
    Of(usize, Product),
}

/// The quantities of a schedule in the order of their places: cleared first,
/// then those of each resource. Place 1 is the first of the list.
pub fn quantities(version: Version, counts: Counts) -> Vec<Quantity> {
    let cleared = Curve::of(version).map(Quantity::Cleared);
    let of_resources = (0..counts.resources).flat_map(|resource| {
        Product::of(version).map(move |product| Quantity::Of(resource, product))
    });
    cleared.chain(of_resources).collect()
}

impl Counts {
    pub fn row_count(self, version: Version) -> usize {
        row_names(version, self).len()
    }

    /// How many quantities a schedule has, which is the last place of 13.
    pub fn place_count(self, version: Version) -> usize {
        quantities(version, self).len()
    }
}

/// Where a curve's cleared quantity stands in the list of quantities, from 0.
pub fn index_of_cleared(version: Version, curve: Curve) -> usize {
    Curve::of(version).take_while(|other| *other != curve).count()
}

/// Where a resource's quantity stands in the list of quantities, from 0.
pub fn index_of(version: Version, resource: usize, product: Product) -> usize {
    let before = Product::of(version).take_while(|other| *other != product).count();
    Curve::of(version).count() + Product::of(version).count() * resource + before
}

/// The rows that each resource has of its own, in their order.
#[derive(Clone, Copy, Debug, PartialEq, Eq)]
pub enum Limit {
    /// e + g + c within MAX.
    Maximum,
    /// e + s within MAX.
    MaximumWithShortTerm,
    /// e - g not below MIN.
    Minimum,
    /// e within HI.
    High,
    /// e not below LO.
    Low,
}

impl Limit {
    pub const ALL: [Limit; 5] =
        [Limit::Maximum, Limit::MaximumWithShortTerm, Limit::Minimum, Limit::High, Limit::Low];

    /// The first version that has it; all later ones do.
    fn since(self) -> Version {
        match self {
            Limit::Maximum
            | Limit::MaximumWithShortTerm
            | Limit::Minimum
            | Limit::High
            | Limit::Low => Version::ONE,
        }
    }

    /// Those of a version, in the same order.
    pub fn of(version: Version) -> impl Iterator<Item = Limit> {
        Limit::ALL.into_iter().filter(move |limit| limit.since() <= version)
    }

    /// Those that say 'at most' are turned round.
    fn coefficient(self, product: Product) -> i64 {
        use Product::{Contingency, Energy, OnlineShortTerm, Regulating};
        match (self, product) {
            (Limit::Maximum, Energy | Regulating | Contingency) => -1,
            (Limit::MaximumWithShortTerm, Energy | OnlineShortTerm) => -1,
            (Limit::Minimum, Energy) => 1,
            (Limit::Minimum, Regulating) => -1,
            (Limit::High, Energy) => -1,
            (Limit::Low, Energy) => 1,
            _ => 0,
        }
    }

    fn right(self, standing: &Standing) -> i64 {
        match self {
            Limit::Maximum | Limit::MaximumWithShortTerm => -standing.maximum,
            Limit::Minimum => standing.minimum,
            Limit::High => -standing.high,
            Limit::Low => standing.low,
        }
    }
}

/// Which row one is. Zones, flowgates and resources are counted from 0.
#[derive(Clone, Copy, Debug, PartialEq, Eq)]
pub enum RowName {
    Demand,
    Market(Curve),
    Zone(usize, Curve),
    Flowgate(usize),
    Of(usize, Limit),
}

/// The names of a version's rows, row 1 first.
pub fn row_names(version: Version, counts: Counts) -> Vec<RowName> {
    let mut names = vec![RowName::Demand];
    names.extend(Curve::of(version).map(RowName::Market));
    for zone in 0..counts.zones {
        names.extend(Curve::OF_ZONES.map(|curve| RowName::Zone(zone, curve)));
    }
    names.extend((0..counts.flowgates).map(RowName::Flowgate));
    for resource in 0..counts.resources {
        names.extend(Limit::of(version).map(|limit| RowName::Of(resource, limit)));
    }
    names
}

#[derive(Clone, Debug, PartialEq, Eq)]
pub struct Row {
    pub name: RowName,
    /// One for each quantity, in the order of places.
    pub coefficients: Vec<i64>,
    pub right: i64,
    /// The first row must be met exactly.
    pub equation: bool,
}

impl Row {
    /// Left side less right side.
    pub fn slack(&self, amounts: &[i64]) -> i128 {
        let left: i128 = self
            .coefficients
            .iter()
            .zip(amounts)
            .map(|(coefficient, amount)| i128::from(*coefficient) * i128::from(*amount))
            .sum();
        left - i128::from(self.right)
    }

    pub fn holds(&self, amounts: &[i64]) -> bool {
        let slack = self.slack(amounts);
        slack == 0 || (slack > 0 && !self.equation)
    }
}

/// Every row of the case, row 1 first.
pub fn rows(case: &Case, standings: &[Standing]) -> Vec<Row> {
    let quantities = quantities(case.version, case.counts);
    let row = |name| {
        let coefficient = |quantity: &Quantity| coefficient(case, standings, name, *quantity);
        Row {
            name,
            coefficients: quantities.iter().map(coefficient).collect(),
            right: right(case, standings, name),
            equation: name == RowName::Demand,
        }
    };
    row_names(case.version, case.counts).into_iter().map(row).collect()
}

/// What a quantity counts in a row.
fn coefficient(case: &Case, standings: &[Standing], row: RowName, quantity: Quantity) -> i64 {
    let serves = |resource: usize, product, curve| {
        i64::from(serves(product, standings[resource].spinning, curve))
    };
    match (row, quantity) {
        (RowName::Demand, Quantity::Of(_, Product::Energy)) => 1,
        (RowName::Market(curve), Quantity::Cleared(cleared)) => -i64::from(cleared == curve),
        (RowName::Market(curve), Quantity::Of(resource, product)) => {
            serves(resource, product, curve)
        }
        (RowName::Zone(zone, curve), Quantity::Of(resource, product))
            if case.resources[resource].zone == zone + 1 =>
        {
            serves(resource, product, curve)
        }
        (RowName::Flowgate(flowgate), Quantity::Of(resource, Product::Energy)) => {
            -case.flowgates[flowgate].factors[resource]
        }
        (RowName::Of(own, limit), Quantity::Of(resource, product)) if own == resource => {
            limit.coefficient(product)
        }
        _ => 0,
    }
}

/// Whether a product counts towards a curve's row.
fn serves(product: Product, spinning: bool, curve: Curve) -> bool {
    match curve {
        Curve::Operating => matches!(product, Product::Regulating | Product::Contingency),
        Curve::RegulatingPlusSpinning => {
            product == Product::Regulating || (product == Product::Contingency && spinning)
        }
        Curve::Regulating => product == Product::Regulating,
        Curve::ShortTerm => {
            matches!(product, Product::OnlineShortTerm | Product::OfflineShortTerm)
        }
    }
}

fn right(case: &Case, standings: &[Standing], row: RowName) -> i64 {
    match row {
        RowName::Demand => case.demand,
        RowName::Market(_) => 0,
        RowName::Zone(zone, curve) => case.zones[zone][curve as usize],
        RowName::Flowgate(flowgate) => -1000 * case.flowgates[flowgate].limit,
        RowName::Of(resource, limit) => limit.right(&standings[resource]),
    }
}
