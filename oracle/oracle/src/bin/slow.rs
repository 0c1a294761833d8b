//! The search for slow requests: random and mutated ones of at most 100 KB, for Check, Sums and Lookup.
//!
//! Usage: `slow N [SEED]`. Prints the worst ratio of our time to that of the Rust with reading, and our worst time for each
//! byte, and for each byte and target, and leaves the requests in target/slow. The exit status is 1 where one takes more
//! than 2 µs a byte and target.

#[path = "../library.rs"]
mod library;

use oracle::answers::{self, Answer};
use oracle::cases::{Case, Draft, Operation, Outcome};
use oracle::generate::mutations::array_depth;
use oracle::pieces::Piece;
use oracle::rng::Rng;
use oracle::search::{Find, Search, Taken, DEEPEST};
use oracle::timing::{glance, shown};
use oracle::{hex, workloads};
use std::hint::black_box;
use std::time::{SystemTime, UNIX_EPOCH};
use std::{env, fs};

/// The most seconds for a byte and target.
const MOST: f64 = 2e-6;

const OPERATIONS: [(Operation, &str); 3] =
    [(Operation::Check, "check"), (Operation::Sums, "sums"), (Operation::Lookup, "lookup")];

fn main() {
    let mut words = env::args().skip(1);
    let count: usize = words.next().and_then(|w| w.parse().ok()).expect("usage: slow N [SEED]");
    let seed: u64 = words.next().map_or_else(seed_from_clock, |w| w.parse().expect("the seed is a number"));
    let lends = library::check_with(0, [&[]; 3], &mut [], &mut []).is_some();
    if !lends || OPERATIONS.iter().any(|(operation, _)| !library::operations().contains(operation)) {
        println!("oracle: NOTHING TRIED, the static library is not there or lacks functions");
        std::process::exit(1);
    }
    println!("oracle: {count} requests, seed {seed}");
    let mut slow = false;
    for (operation, name) in OPERATIONS {
        let search = searched(operation, count / OPERATIONS.len(), seed);
        slow |= said(name, &search);
    }
    if slow {
        println!("oracle: SLOW, there are requests above {} a byte and target", shown(Some(MOST)));
        std::process::exit(1);
    }
    println!("oracle: no request is above {} a byte and target", shown(Some(MOST)));
}

fn seed_from_clock() -> u64 {
    SystemTime::now().duration_since(UNIX_EPOCH).map_or(1, |d| d.as_nanos() as u64)
}

fn searched(operation: Operation, count: usize, seed: u64) -> Search {
    let mut rng = Rng::new(seed);
    let mut search = Search::new(operation);
    for draft in known(operation) {
        search.try_one(draft, taken);
    }
    for _ in 0..count {
        let draft = search.next_draft(&mut rng);
        search.try_one(draft, taken);
    }
    search
}

/// Requests of the benchmark, as trees, and some with very many reports or names, to begin with.
fn known(operation: Operation) -> Vec<Draft> {
    let more = [
        workloads::differing("reports", 60, 20, 1 << 20),
        workloads::alike("one start", 4, 64 << 10),
        workloads::many_principals("principals", 2_000, 1),
        workloads::many_actions("actions", 1),
        workloads::behind_a_large_type("large type", 1),
    ];
    let all = workloads::all().into_iter().filter(|w| !w.name.starts_with("array")).chain(more);
    all.map(|w| {
        let [s, c, t, p] = w.trees;
        let records = match operation {
            Operation::Check => vec![s, c, t],
            Operation::Sums => vec![c],
            _ => vec![s, t, p],
        };
        Draft { operation, records, size: w.space }
    })
    .collect()
}

/// Our time and the Rust's; the Rust is not asked where arrays stand too deep in arrays.
fn taken(draft: &Draft) -> Taken {
    let case = draft.case();
    let mut buffer = vec![0; case.size];
    let mut workspace = vec![0; workloads::workspace_for(case.size)];
    let ours = glance(|| {
        black_box(call(&case, &mut buffer, &mut workspace));
    });
    let deep = draft.records.iter().map(array_depth).max().unwrap_or(0) > DEEPEST;
    let rust = (!deep).then(|| {
        glance(|| {
            black_box(rust_call(&case, &mut buffer));
        })
    });
    Taken { ours, rust }
}

/// Our call; a check is lent workspace that is enough for the buffer.
fn call(case: &Case, buffer: &mut [u8], workspace: &mut [u32]) -> Option<Answer> {
    let r = &case.records;
    match case.operation {
        Operation::Check => library::check_with(0, [&r[0], &r[1], &r[2]], buffer, workspace),
        Operation::Sums => library::sums(&r[0], buffer),
        _ => library::lookup(&r[0], &r[1], &r[2], buffer),
    }
}

fn rust_call(case: &Case, buffer: &mut [u8]) -> Answer {
    let r = &case.records;
    match case.operation {
        Operation::Check => answers::check(&r[0], &r[1], &r[2], buffer),
        Operation::Sums => answers::sums(&r[0], buffer),
        _ => answers::lookup(&r[0], &r[1], &r[2], buffer),
    }
}

/// Prints the worst of an operation and keeps them in files; answers whether one is above the bound.
fn said(name: &str, search: &Search) -> bool {
    let Some([ratio, byte, target]) = search.worst() else { return false };
    println!("{name}: worst ratio to the Rust {:.2}: {}", ratio.ratio(), described(ratio));
    println!("{name}: worst time a byte {}: {}", shown(Some(byte.for_a_byte())), described(byte));
    let most = target.for_a_byte_and_target();
    println!("{name}: worst time a byte and target {}: {}", shown(Some(most)), described(target));
    for (measure, find) in [("ratio", ratio), ("byte", byte), ("target", target)] {
        keep(&format!("{name}-{measure}"), find);
    }
    most > MOST
}

fn described(find: &Find) -> String {
    let count = match library::outcome(&find.draft.case()) {
        Some(Outcome::Answered(answer, _)) => format!("number {}, count {}", answer.number, answer.count),
        _ => "no answer".to_string(),
    };
    format!(
        "ours {}, the Rust {}, {} bytes, {} targets, buffer {}, {count}",
        shown(Some(find.taken.ours)),
        shown(find.taken.rust),
        find.bytes,
        find.targets,
        find.draft.size
    )
}

/// The request on one line: the operation's letter, its records, the size of the buffer.
fn keep(name: &str, find: &Find) {
    let records: Vec<String> = find.draft.records.iter().map(Piece::bytes).map(|bytes| hex::encode(&bytes)).collect();
    let line = format!("{} {} {}\n", find.draft.operation.letter(), records.join(" "), find.draft.size);
    fs::create_dir_all("target/slow").expect("target/ can be written");
    fs::write(format!("target/slow/{name}.txt"), line).expect("target/slow can be written");
}
