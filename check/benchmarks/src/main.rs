//! Times the proved library's calls beside the reference program's, on the same inputs.

mod case;
mod checksum;
#[path = "../../compare/src/convert.rs"]
mod convert;
mod host;
mod timing;

use timing::{measure, Medians};

/// The sizes of host table whose growth is shown.
const SIZES: [usize; 4] = [4, 16, 64, 255];

/// A call on a host: its name, and its case with that many hosts in the table.
type Call = (&'static str, fn(usize) -> case::Case);

const CALLS: [Call; 5] = [
    ("inspect", case::inspect),
    ("act", case::act),
    ("send", case::send),
    ("tick", case::tick),
    ("lookup", case::lookup),
];

fn main() {
    if std::env::args().nth(1).as_deref() != Some("checksum") {
        calls();
    }
    checksum::run();
}

/// The calls on a host.
fn calls() {
    let calls = CALLS.iter().flat_map(|(name, case)| {
        SIZES.map(|nhosts| (format!("{name}, NHOSTS {nhosts}"), case(nhosts)))
    });
    let (names, mut cases): (Vec<_>, Vec<_>) = calls.unzip();
    let medians = measure(&mut cases);

    println!(
        "Medians of {} rounds, nanoseconds for one call.\n",
        timing::ROUNDS
    );
    println!(
        "{:<24} {:>10} {:>10} {:>7}",
        "call", "library", "reference", "ratio"
    );
    for (name, Medians { library, reference }) in names.iter().zip(&medians) {
        let ratio = library / reference;
        println!("{name:<24} {library:>10.1} {reference:>10.1} {ratio:>7.2}");
    }
    println!("\nGrowth: nanoseconds for each host more, from NHOSTS 4 to 255.\n");
    println!("{:<24} {:>10} {:>10}", "call", "library", "reference");
    for ((name, _), sizes) in CALLS.iter().zip(medians.chunks(SIZES.len())) {
        let [library, reference] = growth(sizes);
        println!("{name:<24} {library:>10.2} {reference:>10.2}");
    }
}

/// The mean growth for one host more, from the least size to the greatest.
fn growth(sizes: &[Medians]) -> [f64; 2] {
    let more = (SIZES[SIZES.len() - 1] - SIZES[0]) as f64;
    let (least, greatest) = (&sizes[0], &sizes[sizes.len() - 1]);
    [
        (greatest.library - least.library) / more,
        (greatest.reference - least.reference) / more,
    ]
}
