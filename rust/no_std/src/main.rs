//! A station's program without `std` and without a heap: the tree and its scratch are four arrays.
//!
//!     cargo run --offline --manifest-path rust/no_std/Cargo.toml --target-dir target/rust
//!
//! Ends with 0 if a day of rows is in the tree as it has to be, else with the refusal's number, 100 or 101.
#![no_std]
#![no_main]

use cftree::lent::{self, Head, Lent};
use cftree::{Refusal, Settings};
use core::panic::PanicInfo;

const STATION: Settings = Settings::new(4, 24);
const ROWS: u32 = 8640;

// of the C library: what starts a program, memset and memcpy
#[link(name = "c")]
extern "C" {}

#[panic_handler]
fn panic(_: &PanicInfo) -> ! {
    loop {}
}

/// Pressure, air temperature, humidity and air speed, every ten seconds, with a door that opens now and then.
fn row(at: u32) -> [f64; 4] {
    let wave = f64::from(at % 720) / 720.0;
    let door = if at % 997 == 0 { 1.0 } else { 0.0 };
    [
        1009.0 + wave - door,
        11.9 + wave / 4.0,
        93.0 - wave,
        0.35 + door,
    ]
}

/// Whether every row of the day is counted, and the latest is routed to an entry that there is.
fn day() -> Result<bool, Refusal> {
    let (mut floats, mut links) = ([0.0; STATION.floats_len()], [0; STATION.links_len()]);
    let mut scratch_floats = [0.0; STATION.scratch_floats_len()];
    let mut scratch_links = [0; STATION.scratch_links_len()];
    let mut head = lent::create(Head::from(STATION), &mut floats, &mut links).into_result()?;
    for at in 0..ROWS {
        let lent = Lent {
            floats: &mut floats,
            links: &mut links,
            scratch_floats: &mut scratch_floats,
            scratch_links: &mut scratch_links,
        };
        head = lent::insert_row(head, lent, &row(at)).into_result()?;
    }
    let entries = lent::entries(head, &floats, &links)?;
    let last = lent::route_row(head, &floats, &links, &row(ROWS - 1))? as usize;
    let counted = entries.clone().map(|entry| entry.weight).sum::<f64>();
    let all = lent::summary(head, &floats, &links)?.weight;
    Ok(last < entries.len() && counted == f64::from(ROWS) && all == counted)
}

#[no_mangle]
pub extern "C" fn main() -> i32 {
    if cftree::version() != cftree::VERSION {
        return 101;
    }
    match day() {
        Ok(true) => 0,
        Ok(false) => 100,
        Err(refusal) => refusal.number() as i32,
    }
}
