//! Times the meter against the crate ena on the same calls, in one process. `bench/run` builds and runs it, and
//! docs/BENCHMARKS.md says what is measured and how. Writes a line of tab-separated figures for each work and size; an
//! argument chooses one work by its name, for a profile.

#[path = "../../bindings/rust/src/ffi.rs"]
mod ffi;
// The oracle's value: owners as the crate's `Option` of an `EqUnifyValue`, amounts that add.
#[path = "../../oracle/src/value.rs"]
mod value;

mod ena_side;
mod interface;
mod measure;
mod meter_side;
mod random;
mod switches;
mod work;

use measure::{Time, Times};

const SIZES: [u32; 4] = [1_000, 4_096, 16_384, 65_536];

fn main() {
    println!("memory\trow\t{}\t{}", meter_side::row(), ena_side::ROW);
    println!("memory\tentry\t{}\t{}", meter_side::entry(), ena_side::ENTRY);
    println!("memory\tstate\t{}\t", meter_side::state());
    println!("interface\t{:.2}", measure::interface());
    // Work by work, so that the sizes of one are timed right after each other.
    let chosen = std::env::args().nth(1);
    let works = SIZES.map(work::all);
    for at in 0..works[0].len() {
        for (keys, works) in SIZES.into_iter().zip(&works) {
            let work = &works[at];
            if chosen.as_ref().is_some_and(|name| *name != work.name) {
                continue;
            }
            let times = measure::measure(work, keys as usize);
            print(&work.name, keys, &times);
        }
    }
}

fn print(name: &str, keys: u32, times: &Times) {
    let Times { calls, steps, .. } = times;
    let columns: Vec<String> = [
        &times.meter_list,
        &times.ena_list,
        &times.meter_single,
        &times.ena_single,
    ]
    .map(|Time { median, low, high }| format!("{median:.2}\t{low:.2}\t{high:.2}"))
    .to_vec();
    println!("time\t{name}\t{keys}\t{calls}\t{steps:.2}\t{}", columns.join("\t"));
    eprintln!(
        "{keys:>6} {name:<44} list {:>7.1} / {:>6.1} ns = {:>5.2}   single {:>7.1} / {:>6.1} ns = {:>5.2}",
        times.meter_list.median,
        times.ena_list.median,
        times.meter_list.median / times.ena_list.median,
        times.meter_single.median,
        times.ena_single.median,
        times.meter_single.median / times.ena_single.median,
    );
}
