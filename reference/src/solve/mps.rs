//! A linear programme in the fixed MPS format, which nearly every solver reads.

use crate::solve::programme::Programme;
use std::fmt::Write;

/// The text of the programme; `whole` asks for whole-number columns.
pub fn text(programme: &Programme, whole: bool) -> String {
    let mut out = String::from("NAME          DISPATCH\nROWS\n N  COST\n");
    for (index, row) in programme.rows.iter().enumerate() {
        let sense = if row.equation { 'E' } else { 'G' };
        line(&mut out, format_args!(" {sense}  R{}", index + 1));
    }
    out.push_str("COLUMNS\n");
    if whole {
        out.push_str("    MARK1     'MARKER'                 'INTORG'\n");
    }
    for column in 0..programme.columns.len() {
        write_column(&mut out, programme, column);
    }
    if whole {
        out.push_str("    MARK2     'MARKER'                 'INTEND'\n");
    }
    if programme.priced {
        write_misses(&mut out, programme);
    }
    out.push_str("RHS\n");
    for (index, row) in programme.rows.iter().enumerate() {
        if row.right != 0 {
            entry(&mut out, "    ", "RHS", &format!("R{}", index + 1), row.right);
        }
    }
    out.push_str("BOUNDS\n");
    for (index, column) in programme.columns.iter().enumerate() {
        // Some readers take an upper bound of 0 for 'no lower bound'.
        let kind = if column.upper_bound == 0 { " FX " } else { " UP " };
        entry(&mut out, kind, "BND", &format!("C{}", index + 1), column.upper_bound);
    }
    out.push_str("ENDATA\n");
    out
}

fn write_column(out: &mut String, programme: &Programme, column: usize) {
    let name = format!("C{}", column + 1);
    entry(out, "    ", &name, "COST", programme.columns[column].price);
    for row in 0..programme.rows.len() {
        let coefficient = programme.coefficient(row, column);
        if coefficient != 0 {
            entry(out, "    ", &name, &format!("R{}", row + 1), coefficient);
        }
    }
}

/// Columns that make up for a missed row, at the ends of its price's range. A
/// column that only lowers an 'at least' row would earn nothing.
fn write_misses(out: &mut String, programme: &Programme) {
    for row in 0..programme.rows.len() {
        let (least, most) = programme.price_range(row);
        let target = format!("R{}", row + 1);
        for (name, sign, price) in [('S', 1, most), ('X', -1, -least)] {
            if price > 0 {
                let name = format!("{name}{}", row + 1);
                entry(out, "    ", &name, "COST", price);
                entry(out, "    ", &name, &target, sign);
            }
        }
    }
}

/// Fields start at columns 5, 15 and 25, as the fixed format has it.
fn entry(out: &mut String, head: &str, first: &str, second: &str, number: i64) {
    line(out, format_args!("{head}{first:<8}  {second:<8}  {number:>12}"));
}

fn line(out: &mut String, text: std::fmt::Arguments<'_>) {
    // Writing to a string cannot fail.
    let _ = writeln!(out, "{text}");
}
