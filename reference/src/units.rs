//! The units of the paper, as names for the reader.

/// Power, whole kilowatts.
pub type Kw = i64;

/// Offer, curve and flowgate prices: cents per MWh.
pub type Cents = i64;

/// All other prices: thousandths of a cent per MWh.
pub type Thousandths = i64;

/// Cost, bound and charges: one thousandth of a cent per MWh times one kW.
/// Wide, so that sums are exact before anyone asks whether they fit.
pub type Grains = i128;

/// Thousandths of a cent in a cent.
pub const THOUSAND: i64 = 1000;
