//! Times the archive's entries against the same algorithms in Rust, and the
//! level split against another algorithm besides. Prints Markdown tables, and
//! meanwhile on standard error what is timed.
//!
//!     bench          compares the answers on each measured network, then times
//!     bench quick    compares the answers on many networks, and times nothing
//!
//! Ends in a panic where two answers differ. All sides run in turn on the same
//! lists.

mod best;
mod classes;
mod entries;
#[allow(dead_code)]
#[path = "../../tests/comparison/src/ffi.rs"]
mod ffi;
#[allow(dead_code)]
#[path = "../../tests/comparison/src/job.rs"]
mod job;
#[allow(dead_code)]
#[path = "../../tests/comparison/src/job2.rs"]
mod job2;
mod jobs;
mod measure;
mod networks;
mod page;
#[allow(dead_code)]
#[path = "../../tests/comparison/src/reference.rs"]
mod reference;
#[allow(dead_code)]
#[path = "../../tests/comparison/src/rng.rs"]
mod rng;
mod same;
mod steps;

use entries::ENTRIES;
use networks::{Caps, Network, Shape, SHAPES};
use page::Row;
use reference::{ARCS, COST};

const SIZES: [usize; 3] = [15, 127, ARCS];

fn main() {
    match std::env::args().nth(1).as_deref() {
        None => measure(),
        Some("quick") => println!("bench: {} networks, no difference", compare()),
        Some(word) => panic!("bench or bench quick, and not {word}"),
    }
}

/// Compares the answers; tells on how many networks.
fn compare() -> usize {
    steps::compare();
    let mut networks = 0;
    for (shape, _) in SHAPES {
        for arcs in [
            1, 2, 3, 5, 9, 15, 40, 63, 64, 65, 66, 127, 128, 129, 300, ARCS,
        ] {
            for caps in [Caps::Near, Caps::Around, Caps::Greatest] {
                for most_cost in [1, 3, 20, 1_000_000, COST] {
                    let seed = networks as u64;
                    entries::compare(&Network::new(shape, arcs, seed, caps, most_cost));
                    networks += 1;
                }
            }
        }
    }
    networks
}

/// One shape at all sizes.
fn measure_shape(shape: Shape, name: &'static str) -> Vec<Row> {
    eprintln!("{name}");
    let network = |&m: &usize| Network::new(shape, m, m as u64, Caps::Near, COST);
    let networks: Vec<Network> = SIZES.iter().map(network).collect();
    networks.iter().for_each(entries::compare);
    let times: Vec<_> = (0..ENTRIES.len())
        .map(|entry| entries::measure(entry, &networks))
        .collect();
    let row = |(i, network): (usize, &Network)| Row {
        network: name,
        arcs: network.parents.len(),
        users: network.users,
        job: network.bytes.len(),
        times: times.iter().map(|entry| entry[i]).collect(),
    };
    networks.iter().enumerate().map(row).collect()
}

fn measure() {
    let shapes = SHAPES.iter();
    let rows: Vec<Row> = shapes
        .flat_map(|&(shape, name)| measure_shape(shape, name))
        .collect();
    let walks = steps::measure();
    page::print_summary(&rows, &walks);
    for entry in 0..ENTRIES.len() {
        page::print_entry(&rows, entry);
    }
    page::print_steps(&walks);
    page::print_growth(&rows, SIZES[1], SIZES[2]);
}
