//! Prints what the runs have printed: a row for each line at each placement.

use crate::keys::Key;
use crate::measure::{best, median};
use crate::runs::{ask, Placed, Size, Told, PLACEMENTS};
use crate::table::{Column, Table};

/// How the original is called where a column does not have its code compiled into the loop.
const CALLED: [&str; 3] = ["view kept", "unchecked", "checked"];

fn columns<K: Key>() -> Vec<Column> {
    let [own, table] = K::MAPS;
    let mut columns = vec![
        Column::Word("items", 5),
        Column::Word("measure", 25),
        Column::Word("code", 9),
        Column::Number("odht", 8),
        Column::Number("median", 8),
    ];
    if cfg!(original) {
        columns.extend([
            Column::Number("original", 8),
            Column::Number("median", 8),
            Column::Bold("ratio", 6),
            Column::Number("its range", 12),
        ]);
        for way in CALLED {
            columns.extend([Column::Number(way, 10), Column::Bold("ratio", 6)]);
        }
    }
    columns.extend([Column::Number(own, 8), Column::Number(table, 15)]);
    columns
}

/// A number, or that there is none.
fn shown(of: fn(&[f64]) -> f64, times: &[f64]) -> String {
    if times.is_empty() {
        return "-".to_string();
    }
    format!("{:.2}", of(times))
}

fn range(ratios: &[f64]) -> String {
    if ratios.is_empty() {
        return "-".to_string();
    }
    let most = ratios.iter().copied().fold(0.0, f64::max);
    format!("{:.2} to {most:.2}", best(ratios))
}

fn fields(placed: &Placed) -> Vec<String> {
    let (ours, original) = (placed.ours.concat(), placed.original.concat());
    let mut fields = vec![shown(best, &ours), shown(median, &ours)];
    if cfg!(original) {
        let ratios = placed.ratios(&placed.original);
        fields.extend([shown(best, &original), shown(median, &original)]);
        fields.extend([shown(median, &ratios), range(&ratios)]);
        for called in &placed.called {
            let ratios = placed.ratios(called);
            fields.extend([shown(best, &called.concat()), shown(median, &ratios)]);
        }
    }
    fields.extend(placed.maps.iter().map(|times| shown(best, times)));
    fields
}

/// Two rows for each line, one for each placement.
fn print_rows(size: &Size, told: &Told, table: &Table) {
    for line in &told.lines {
        for (placed, name) in line.placed.iter().zip(PLACEMENTS).take(size.placements) {
            let mut row = vec![format!("10^{}", size.power_of_ten)];
            row.extend([line.name.clone(), name.to_string()]);
            row.extend(fields(placed));
            table.print(&row);
        }
    }
}

/// Where the code begins that each run reports.
fn print_places(places: &[Vec<usize>; PLACEMENTS.len()]) {
    let original = if cfg!(original) {
        ", and the original's lookups"
    } else {
        ""
    };
    let places = places.iter().zip(PLACEMENTS).map(|(places, name)| {
        let places = places.iter().map(usize::to_string);
        format!("{name} {}", places.collect::<Vec<_>>().join(" and "))
    });
    let places = places.collect::<Vec<_>>().join(", ");
    println!("\nwhere in a line of 64 bytes get_all begins{original}: {places}");
}

/// Runs all sizes, and prints the table.
pub fn print<K: Key>(what: &str, sizes: &[Size], markdown: bool) {
    let table = Table::begin(columns::<K>(), markdown);
    let mut places = [Vec::new(), Vec::new()];
    for size in sizes {
        let told = ask(what, size);
        print_rows(size, &told, &table);
        if size.placements > 1 {
            places = told.places;
        }
    }
    print_places(&places);
}
