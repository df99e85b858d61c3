//! What a cache stores for each request, and what it keeps after a cut.

mod client;
mod counted;
mod orders;
mod scans;
mod trace;

use crate::report::Table;
use client::{Client, How};
use counted::Stores;
use orders::{Events, ORDERS};
use trace::{Load, Trace, LOADS};

const SLOTS: u32 = 1_000;
const BLOCKS: u32 = 4_000;
const WARM: usize = 4_000;
const REQUESTS: usize = 10_000;
/// A cut is tried after so many requests.
const CUT: usize = 40;

/// One run, counted after the box is warm. `kept` is for the box and for each rival: a share of the slots in use for each cut.
struct Run {
    stores: Stores,
    events: Events,
    hits: u64,
    kept: [Vec<f64>; 1 + ORDERS.len()],
}

/// Up to 16 slots open, and no flush.
const USUAL: How = How {
    depth: 16,
    flush_every: 0,
    landing_uses: true,
};

fn run(load: &Load, how: How) -> Run {
    let mut trace = Trace::new(load, BLOCKS);
    let mut client = Client::new(SLOTS, BLOCKS, how);
    (0..WARM).for_each(|_| client.serve(trace.next()));
    client.cache.stores = Stores::default();
    client.events = Events::default();
    client.hits = 0;
    let mut kept: [Vec<f64>; 1 + ORDERS.len()] = Default::default();
    for i in 0..REQUESTS {
        client.serve(trace.next());
        if i % CUT == 0 {
            let flags = client.cache.world.table.chunks_exact(2).map(|row| row[1]);
            let in_use: Vec<u32> = flags.filter(|flags| *flags != 0).collect();
            let share = |n: usize| n as f64 / in_use.len() as f64;
            kept[0].push(share(client.cache.kept_after_cut()));
            for (order, shares) in ORDERS.iter().zip(&mut kept[1..]) {
                shares.push(share(
                    in_use.iter().filter(|flags| (order.keeps)(**flags)).count(),
                ));
            }
        }
    }
    let (stores, events) = (client.cache.stores, client.events);
    let answered = (events.data_stores(), events.copied_out);
    assert!(
        (stores.data, stores.copy_outs) == answered,
        "pages changed as the calls answered"
    );
    Run {
        stores,
        events,
        hits: client.hits,
        kept,
    }
}

/// Mean and least of the shares.
fn shares(kept: &[f64]) -> [String; 2] {
    let mean = kept.iter().sum::<f64>() / kept.len() as f64;
    let least = kept.iter().copied().fold(1.0, f64::min);
    [mean, least].map(|share| format!("{:.1} %", 100.0 * share))
}

/// A row: of so many requests or scans the hits, and the stores of metadata, data and copy-outs, each for one of them.
fn add_row(table: &mut Table, names: [&str; 2], of: usize, counts: [u64; 4], kept: &[f64]) {
    let each = |n: u64| format!("{:.2}", n as f64 / of as f64);
    let mut cells: Vec<String> = names.iter().map(|name| name.to_string()).collect();
    cells.extend(counts.map(each));
    cells.extend(shares(kept));
    table.row(cells);
}

/// Scans of 63 blocks, counted for a whole scan: one that stays on a metadata page, and many, some of which cross to the next.
fn add_scans(table: &mut Table) {
    for (name, count) in [
        (
            "a scan of 63 blocks, on one metadata page: the whole scan",
            1,
        ),
        ("100 scans of 63 blocks, on several: for a whole scan", 100),
    ] {
        for (order, as_list) in [
            ("box, offered one by one", false),
            ("box, offered as a list", true),
        ] {
            let run = scans::run(SLOTS, BLOCKS, count, as_list);
            let stores = run.stores;
            let counts = [0, stores.metadata, stores.data, stores.copy_outs];
            add_row(table, [name, order], count as usize, counts, &run.kept);
        }
    }
}

/// The box without flushes, with the order of slots before document 02's N2 and with flushes; then the rivals on the decisions of
/// the box without.
fn add_load(table: &mut Table, load: &Load) {
    let without = run(load, USUAL);
    let flushing = |flush_every| How {
        flush_every,
        ..USUAL
    };
    let before = How {
        landing_uses: false,
        ..USUAL
    };
    let boxes = [
        ("box, no flush", &without),
        ("box, no flush, used by look-ups alone", &run(load, before)),
        ("box, flush after 16 writes", &run(load, flushing(16))),
        ("box, flush after each write", &run(load, flushing(1))),
    ];
    for (name, run) in boxes {
        let stores = run.stores;
        let counts = [run.hits, stores.metadata, stores.data, stores.copy_outs];
        add_row(table, [load.name, name], REQUESTS, counts, &run.kept[0]);
    }
    let events = without.events;
    for (order, kept) in ORDERS.iter().zip(&without.kept[1..]) {
        let counts = [
            without.hits,
            (order.updates)(&events),
            events.data_stores(),
            events.copied_out,
        ];
        add_row(table, [load.name, order.name], REQUESTS, counts, kept);
    }
}

/// Every load, with up to 16 slots open; counts are for each request. Then scans, with 63.
pub fn table() -> String {
    let counts = ["hits", "metadata stores", "data stores", "copy-outs"];
    let head = [
        &["load", "order"][..],
        &counts,
        &["kept after a cut, mean", "least"],
    ]
    .concat();
    let mut table = Table::new(&head);
    LOADS.iter().for_each(|load| add_load(&mut table, load));
    add_scans(&mut table);
    table.text()
}

/// What a cut leaves, with more or fewer slots open.
pub fn depths() -> String {
    let mut table = Table::new(&[
        "skewed, 70 % reads: open at most",
        "order",
        "kept after a cut, mean",
        "least",
    ]);
    for depth in [1, 16, 63] {
        let run = run(&LOADS[3], How { depth, ..USUAL });
        let names = ["box, no flush"]
            .into_iter()
            .chain(ORDERS.iter().map(|order| order.name));
        for (name, kept) in names.zip(&run.kept) {
            let [mean, least] = shares(kept);
            table.row(vec![depth.to_string(), name.to_string(), mean, least]);
        }
    }
    table.text()
}
