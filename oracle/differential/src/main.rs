//! Compares what is proved with the unchanged Rust, and with the models of document 02, on fields by seed. `oracle/compare` runs it.

mod calls;
mod doors;
mod edited;
mod faults;
mod files;
mod large;
mod lent;
mod library;
mod pieces;
mod plain;
mod results;
mod sizes;
mod small;
mod stops;
mod tally;
mod why;
mod winding;

use std::{env, path::PathBuf, process::ExitCode};
use tally::Tally;

/// One file is mended by the program for so many edited fields.
const FILES_IN: u64 = 7;

struct Order {
    program: PathBuf,
    small: u64,
    large: u64,
    full: u64,
    edited: u64,
    edges: u64,
    doors: u64,
    rooms: u64,
    sizes: u64,
    pieces: u64,
    results: u64,
    why: u64,
    seed: u64,
}

fn main() -> ExitCode {
    match run() {
        Ok(true) => ExitCode::SUCCESS,
        Ok(false) => ExitCode::FAILURE,
        Err(message) => {
            eprintln!("compare: {message}");
            ExitCode::from(2)
        }
    }
}

/// Whether nothing differs.
fn run() -> Result<bool, String> {
    let order = order()?;
    let (seed, ended) = (order.seed, "ended early: so much differs");
    let small = small::compare(&order.program, seed, order.small)?;
    if small.fields > 0 {
        print!("small fields by kind, and their answers:\n{small}");
    }
    let large = large::compare(seed, order.large);
    if large.fields > 0 {
        print!("calls on large fields by kind, and their answers:\n{large}");
    }
    let full = large::compare_full(seed, order.full);
    if full.fields > 0 {
        print!("calls on fields of more than 32,000 spans by kind, and their answers:\n{full}");
    }
    let winding = if order.large > 0 {
        winding::compare()
    } else {
        Tally::default()
    };
    if winding.fields > 0 {
        print!("winding corridors, and their answers:\n{winding}");
    }
    let stops = stops::compare(order.edges);
    if stops.fields > 0 {
        print!("fields at the edges of ids and source distances, and their answers:\n{stops}");
    }
    let edited = edited::compare(seed, order.edited);
    if edited.fields > 0 {
        print!("mendings of edited fields by edit, and their answers:\n{edited}");
    }
    let mending = order.program.with_file_name("mending");
    let files = files::compare(&mending, seed, order.edited / FILES_IN)?;
    if files.fields > 0 {
        print!("files mended by kind, and their answers:\n{files}");
    }
    let doors = doors::compare(seed, order.doors);
    if doors.fields > 0 {
        print!("refreshes by kind, and their answers:\n{doors}");
    }
    let rooms = plain::compare(seed, order.rooms);
    if rooms.fields > 0 {
        print!("plain rooms by kind, and their answers:\n{rooms}");
    }
    let sizes = sizes::compare(seed, order.sizes);
    if sizes.fields > 0 {
        print!("floor sizes by kind, and their answers:\n{sizes}");
    }
    let pieces = pieces::compare(seed, order.pieces);
    if pieces.fields > 0 {
        print!("files in pieces by kind, and their answers:\n{pieces}");
    }
    let results = results::compare(seed, order.results);
    if results.fields > 0 {
        print!("conversions of stored results by kind, and their answers:\n{results}");
    }
    let why = why::compare(seed, order.why);
    if why.fields > 0 {
        print!("spans asked for by kind, and the reasons told:\n{why}");
    }
    let parts = [
        &small, &large, &full, &winding, &stops, &edited, &files, &doors, &rooms, &sizes, &pieces,
        &results, &why,
    ];
    if parts.iter().any(|tally| tally.is_enough()) {
        println!("{ended}");
    }
    let differences: usize = parts.iter().map(|tally| tally.differences).sum();
    println!(
        "compared {} small, {} large, {} edited fields, {} files mended, {} fields with doors, {} with plain rooms, {} with sizes, {} files in pieces, {} stored results, {} fields asked why: {differences} differences",
        small.fields,
        large.fields + full.fields + winding.fields + stops.fields,
        edited.fields,
        files.fields,
        doors.fields,
        rooms.fields,
        sizes.fields,
        pieces.fields,
        results.fields,
        why.fields
    );
    Ok(differences == 0)
}

/// PROGRAM and the options, as the script hands them on.
fn order() -> Result<Order, String> {
    let mut arguments = env::args().skip(1);
    let program = arguments.next().ok_or("PROGRAM is missing")?;
    let mut order = Order {
        program: program.into(),
        small: 20_000,
        large: 38,
        full: 0,
        edited: 7_000,
        edges: 2,
        doors: 3_000,
        rooms: 2_000,
        sizes: 2_000,
        pieces: 4_000,
        results: 3_500,
        why: 400,
        seed: 0,
    };
    while let Some(option) = arguments.next() {
        let value = arguments
            .next()
            .ok_or(format!("{option} lacks its value"))?;
        let number = value
            .parse()
            .map_err(|_| format!("{value} is not a number"))?;
        match option.as_str() {
            "--small" => order.small = number,
            "--large" => order.large = number,
            "--full" => order.full = number,
            "--edited" => order.edited = number,
            "--edges" => order.edges = number,
            "--doors" => order.doors = number,
            "--rooms" => order.rooms = number,
            "--sizes" => order.sizes = number,
            "--pieces" => order.pieces = number,
            "--results" => order.results = number,
            "--why" => order.why = number,
            "--seed" => order.seed = number,
            _ => {
                return Err(format!(
                    "unknown option {option}; see oracle/compare --help"
                ));
            }
        }
    }
    Ok(order)
}
