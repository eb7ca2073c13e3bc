//! side levels|growing|full FOLDER: writes the levels. side real FROM FOLDER: the same of the field files in FROM. side gussetraft|checker|rust distance|regions FILE: runs the distance entry, or both, on one.
//! side time FILE [LIBRARY]: the least times of all on one, C++ Recast being in that library. side door build|refresh|checks|time N: a door in buildings of some N spans.
//! side plain rooms|time FILE: plain rooms of one. side stored time FILE: its result stored.

use side::{
    door, level,
    measured::{compare, mark, read_level, write_files, write_levels},
    rooms,
    run::{self, Entries},
    stored,
    timed::{self, Recast},
};
use std::{env, process::exit};

const USAGE: &str = "side levels|growing|full FOLDER, side real FROM FOLDER, side gussetraft|checker|rust distance|regions FILE, side time FILE [LIBRARY], side door build|refresh|checks|time N, side plain rooms|time FILE, or side stored time FILE";

fn main() {
    let words: Vec<_> = env::args().skip(1).collect();
    let words: Vec<_> = words.iter().map(String::as_str).collect();
    match words[..] {
        ["levels", folder] => write_levels(folder, level::large()),
        ["growing", folder] => write_levels(folder, level::growing()),
        ["full", folder] => write_levels(folder, level::full()),
        ["real", from, folder] => {
            if !write_files(from, folder) {
                eprintln!("bench: {from} has no field file that can be measured");
                exit(1);
            }
        }
        ["time", path] => println!(
            "{}",
            timed::line(&timed::times(&read_level(path), path, None))
        ),
        ["time", path, library] => {
            let recast = Recast::load(library);
            println!(
                "{}",
                timed::line(&timed::times(&read_level(path), path, Some(&recast)))
            );
        }
        ["door", what, n] => {
            let n = n.parse().expect(USAGE);
            match what {
                "build" => door::counted(n, false, mark),
                "refresh" => door::counted(n, true, mark),
                "checks" => door::checked(n, mark),
                "time" => println!("{}", door::timed(n)),
                _ => panic!("{USAGE}"),
            }
        }
        ["plain", "rooms", path] => rooms::counted(&read_level(path), mark),
        ["plain", "time", path] => println!("{}", rooms::timed(&read_level(path))),
        ["stored", "time", path] => println!("{}", stored::timed(&read_level(path))),
        [who, entries, path] => {
            let entries = match entries {
                "distance" => Entries::Distance,
                "regions" => Entries::Both,
                _ => panic!("{USAGE}"),
            };
            let case = read_level(path);
            match who {
                "gussetraft" => compare(path, "dense", &run::gussetraft(&case, entries, mark)),
                "rust" => compare(path, "answer", &run::rust(&case, entries, mark)),
                "checker" => run::checker(&case, entries, mark),
                _ => panic!("{USAGE}"),
            }
        }
        _ => panic!("{USAGE}"),
    }
}
