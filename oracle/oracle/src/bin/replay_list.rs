//! Writes the stored lists into the folder given, and prints what they cover; with `--lines` prints their cases.

use oracle::coverage::Coverage;
use oracle::lists;
use std::path::PathBuf;

fn main() {
    let folder = std::env::args().nth(1).expect("usage: replay_list FOLDER | --lines");
    if folder == "--lines" {
        for line in lists::all().iter().flat_map(lists::List::lines) {
            println!("{line}");
        }
        return;
    }
    write(PathBuf::from(folder));
}

fn write(folder: PathBuf) {
    std::fs::create_dir_all(&folder).expect("the folder can be made");
    let mut coverage = Coverage::default();
    let mut total = 0;
    for list in lists::all() {
        let bytes = list.bytes(&mut coverage);
        println!("{:13} {:6} cases {:9} bytes", list.file, list.cases.len(), bytes.len());
        total += bytes.len();
        std::fs::write(folder.join(list.file), bytes).expect("the list can be written");
    }
    println!("{total} bytes in all\n\nCovered:");
    coverage.print();
}
