//! The benchmark: both sides on the same bytes in the same run, in a table; the stack that the library takes; a plot.
//!
//! For each row: the published Rust alone, on trees that are read already; the Rust with the oracle's reading of the
//! records into its trees; ours, which always reads. The ratio is of the last two. With `--write FOLDER` the table and the
//! stack go into the marked parts of BENCHMARKS.md of that folder, and the plot into benchmark.svg beside it. With
//! `--rows TEXT` only the rows whose input has that text are measured, with `--stack` only the stack, and nothing is
//! written.

#[path = "../library.rs"]
mod library;

use dogwood_rust::extension::temporal::schema_info::SchemaInfo;
use dogwood_rust::extension::temporal::validate;
use oracle::answers;
use oracle::cases::Operation;
use oracle::plot::{self, Line, Panel};
use oracle::records::{self, Listed};
use oracle::stack;
use oracle::steps::Steps;
use oracle::timing::{shown, time};
use oracle::workloads::{self, workspace_for, Workload};
use std::collections::hash_map::RandomState;
use std::hash::{BuildHasher, Hasher};
use std::hint::black_box;
use std::path::Path;
use std::process::Command;
use std::{env, fs};

fn main() {
    let words: Vec<String> = env::args().skip(1).collect();
    match &words.iter().map(String::as_str).collect::<Vec<_>>()[..] {
        ["--rows", text] => println!("{}", table(text)),
        ["--stack"] => println!("{}", stacks()),
        rest => whole(rest),
    }
}

/// Everything, and with `--write FOLDER` into the page of that folder.
fn whole(words: &[&str]) {
    let table = table("");
    let stacks = stacks();
    println!("{table}\n{stacks}");
    if let [flag, folder] = words {
        assert_eq!(*flag, "--write");
        write(Path::new(folder), &[("table", &table), ("stack", &stacks)]);
    }
}

// ─── The table ───

/// The times of one row, in seconds.
struct Times {
    alone: Option<f64>,
    with_reading: f64,
    ours: Option<f64>,
}

/// The rows whose input has this text.
fn table(text: &str) -> String {
    let mut out = format!("{}\n\n", machine());
    out += "| input | operation | Rust alone | Rust with reading | ours | Rust with reading / ours |\n";
    out += "|---|---|---:|---:|---:|---:|\n";
    for (input, operation, times) in naming(text) {
        out += &row(&input, operation, &times);
    }
    for w in workloads::windowed().iter().filter(|w| w.name.contains(text)) {
        out += &row(&w.name, "windows", &windows(w));
    }
    for w in workloads::valued().iter().filter(|w| w.name.contains(text)) {
        let read = read(Operation::ReadCondition, &w.condition);
        out += &row(&w.name, "check", &check(w));
        out += &row(&format!("{} ({} bytes)", w.name, w.condition.len()), "read condition", &read);
    }
    for w in workloads::timed().iter().filter(|w| w.name.contains(text)) {
        out += &row(&w.name, "check", &check(w));
    }
    for w in workloads::scoped().iter().filter(|w| w.name.contains(text)) {
        out += &row(&w.name, "check", &check(w));
        out += &row(&w.name, "check, own bodies", &check_in_own_bodies(w));
        out += &row(&w.name, "sums", &sums(w));
        out += &row(&w.name, "sums, own bodies", &sums_in_own_bodies(w));
    }
    for w in workloads::stepped().iter().filter(|w| w.name.contains(text)) {
        out += &row(&w.name, "check", &check(w));
        out += &row(&w.name, "steps", &in_steps(w, 0));
        out += &row(&w.name, "check, own bodies", &check_in_own_bodies(w));
        out += &row(&w.name, "steps, own bodies", &in_steps(w, library::OWN_BODIES));
    }
    let all = workloads::all().into_iter().chain(workloads::crowded()).chain(workloads::searching());
    for w in all.filter(|w| w.name.contains(text)) {
        for (input, operation, times) in rows_of(&w) {
            out += &row(&input, operation, &times);
        }
    }
    out
}

/// What the comparison of names costs, in the rows whose input has this text.
fn naming(text: &str) -> Vec<(String, &'static str, Times)> {
    let (schemas, found) = workloads::naming();
    let sized = |w: &Workload| format!("{} ({} bytes)", w.name, w.schema.len());
    let reading = |w: &Workload| (sized(w), "read schema", read(Operation::ReadSchema, &w.schema));
    let mut rows: Vec<_> = schemas.iter().filter(|w| w.name.contains(text)).map(reading).collect();
    if found.name.contains(text) {
        rows.push((found.name.clone(), "check", check(&found)));
    }
    rows
}

fn rows_of(w: &Workload) -> Vec<(String, &'static str, Times)> {
    let mut rows = vec![(w.name.clone(), "check", check(w))];
    if w.name == "everyday" {
        rows.push((w.name.clone(), "check, strict", strictly(w)));
    }
    if w.reads {
        let sized = |bytes: &[u8]| format!("{} ({} bytes)", w.name, bytes.len());
        let reading = [
            ("read schema", Operation::ReadSchema, &w.schema),
            ("read condition", Operation::ReadCondition, &w.condition),
            ("read targets", Operation::ReadTargets, &w.targets),
        ];
        rows.extend(reading.map(|(what, operation, bytes)| (sized(bytes), what, read(operation, bytes))));
        rows.push((w.name.clone(), "sums", sums(w)));
        rows.push((w.name.clone(), "lookup", lookup(w)));
    }
    rows
}

fn read(operation: Operation, bytes: &[u8]) -> Times {
    let rust = || match operation {
        Operation::ReadSchema => used(records::read_schema(black_box(bytes))),
        Operation::ReadCondition => used(records::read_condition(black_box(bytes))),
        _ => used(records::read_targets(black_box(bytes))),
    };
    let ours = library::read(operation, bytes).map(|_| time(|| used(library::read(operation, black_box(bytes)))));
    Times { alone: None, with_reading: time(rust), ours }
}

fn check(w: &Workload) -> Times {
    let mut buffer = vec![0; w.space];
    let (s, c, t) = (&w.schema[..], &w.condition[..], &w.targets[..]);
    let read = (
        records::read_schema(s).ok().unwrap(),
        records::read_condition(c).ok().unwrap(),
        records::read_targets(t).ok().unwrap(),
    );
    let info = SchemaInfo::from_validator_schema(&read.0);
    let alone = time(|| {
        let errors = read
            .1
            .field_paths
            .in_force(|| validate::oracle_check_types(&read.1.condition, &info, &read.2.targets, read.2.narrowing()));
        used(errors);
    });
    let with_reading = time(|| used(answers::check(black_box(s), c, t, &mut buffer)));
    let ours = match w.lends {
        true => lent(w, 0, &mut buffer),
        false => {
            library::check(s, c, t, &mut buffer).map(|_| time(|| used(library::check(black_box(s), c, t, &mut buffer))))
        }
    };
    Times { alone: Some(alone), with_reading, ours }
}

/// Our strict check beside the Rust's plain one: it has no other.
fn strictly(w: &Workload) -> Times {
    Times { ours: lent(w, library::STRICT, &mut vec![0; w.space]), ..check(w) }
}

/// Our check with binders in their own bodies beside the Rust's flat one: it has no other.
fn check_in_own_bodies(w: &Workload) -> Times {
    Times { ours: lent(w, library::OWN_BODIES, &mut vec![0; w.space]), ..check(w) }
}

/// Our check with these rules from its start to its last step, beside the Rust's, which does all targets at once.
fn in_steps(w: &Workload, rules: u8) -> Times {
    let records = [&w.schema[..], &w.condition[..], &w.targets[..]];
    let mut buffer = vec![0; w.space];
    let mut workspace = vec![0; if w.lends { workspace_for(w.space) } else { 0 }];
    let mut call = || {
        let (mut last, mut state) = library::steps_start(rules, black_box(records))?;
        for _ in 0..Listed::of(&w.targets).ok()?.targets.len() {
            (last, state) = match w.lends {
                true => library::steps_step_with(records, state, &mut buffer, &mut workspace)?,
                false => library::steps_step(records, state, &mut buffer)?,
            };
        }
        Some(last)
    };
    let answer = call();
    let at_once = library::check_with(rules, records, &mut vec![0; w.space], &mut vec![0; workspace_for(w.space)]);
    assert!(answer.is_none() || answer == at_once, "{}: steps answer otherwise than a check", w.name);
    let ours = answer.map(|_| time(|| used(call())));
    Times { ours, ..check(w) }
}

/// Our sums in the same way.
fn sums_in_own_bodies(w: &Workload) -> Times {
    let mut buffer = vec![0; 65_536];
    let mut call = || library::sums_with(library::OWN_BODIES, black_box(&w.condition), &mut buffer);
    let ours = call().map(|_| time(|| used(call())));
    Times { ours, ..sums(w) }
}

/// Our time with these rules and with workspace lent beside the buffer, and a random key in it; none where the library has
/// no such function.
fn lent(w: &Workload, rules: u8, buffer: &mut [u8]) -> Option<f64> {
    let (s, c, t) = (&w.schema[..], &w.condition[..], &w.targets[..]);
    let mut workspace = vec![0; workspace_for(w.space)];
    let key = RandomState::new().build_hasher().finish() as u32;
    let mut call = || {
        workspace[0] = key;
        library::check_with(rules, [black_box(s), c, t], buffer, &mut workspace)
    };
    call()?;
    Some(time(|| used(call())))
}

fn sums(w: &Workload) -> Times {
    let mut buffer = vec![0; 65_536];
    let read = records::read_condition(&w.condition).ok().unwrap();
    let alone = time(|| used(validate::oracle_check_sum_summands(&read.condition)));
    let with_reading = time(|| used(answers::sums(black_box(&w.condition), &mut buffer)));
    let ours = library::sums(&w.condition, &mut buffer)
        .map(|_| time(|| used(library::sums(black_box(&w.condition), &mut buffer))));
    Times { alone: Some(alone), with_reading, ours }
}

/// The listing in sweeps of an hour.
fn windows(w: &Workload) -> Times {
    const HOUR: u64 = 3_600;
    let mut output = vec![0; 65_536];
    let read = records::read_condition(&w.condition).ok().unwrap();
    let alone = time(|| used(validate::oracle_windows(&read.condition)));
    let with_reading = time(|| used(answers::windows(black_box(&w.condition), HOUR, &mut output)));
    let ours = library::windows(&w.condition, HOUR, &mut output)
        .map(|_| time(|| used(library::windows(black_box(&w.condition), HOUR, &mut output))));
    Times { alone: Some(alone), with_reading, ours }
}

fn lookup(w: &Workload) -> Times {
    let mut output = vec![0; 4_096];
    let (s, t, p) = (&w.schema[..], &w.targets[..], &w.path[..]);
    let with_reading = time(|| used(answers::lookup(black_box(s), t, p, &mut output)));
    let ours =
        library::lookup(s, t, p, &mut output).map(|_| time(|| used(library::lookup(black_box(s), t, p, &mut output))));
    Times { alone: None, with_reading, ours }
}

fn row(input: &str, operation: &str, times: &Times) -> String {
    let ratio = times.ours.map_or("–".to_string(), |ours| format!("{:.2}", times.with_reading / ours));
    let cells = [times.alone, Some(times.with_reading), times.ours].map(shown);
    format!("| {input} | {operation} | {} | {ratio} |\n", cells.join(" | "))
}

/// What the figures were taken on.
fn machine() -> String {
    let cpus = fs::read_to_string("/proc/cpuinfo").unwrap_or_default();
    let names: Vec<_> = cpus.lines().filter_map(|line| line.strip_prefix("model name\t: ")).collect();
    let compiler =
        Command::new("rustc").arg("--version").output().map(|o| String::from_utf8_lossy(&o.stdout).to_string());
    let words: Vec<_> = compiler.as_deref().unwrap_or("rustc").split_whitespace().take(2).collect();
    format!("{}, {} cores, {}.", names.first().unwrap_or(&"An unknown processor"), names.len(), words.join(" "))
}

/// A result that the compiler must not leave out.
fn used<T>(result: T) {
    black_box(result);
}

// ─── The stack ───

fn stacks() -> String {
    let mut out = String::from("| input | operation | bytes of stack |\n|---|---|---:|\n");
    for w in workloads::all().iter().filter(|w| w.reads).chain(&workloads::deep()) {
        for (operation, bytes) in stacks_of(w) {
            out += &format!("| {} | {operation} | {bytes} |\n", w.name);
        }
    }
    out
}

fn stacks_of(w: &Workload) -> [(&'static str, usize); 9] {
    const OWN: u8 = library::OWN_BODIES;
    let (mut buffer, mut workspace) = (vec![0; 65_536], vec![0; workspace_for(65_536)]);
    let (s, c, t, p) = (&w.schema[..], &w.condition[..], &w.targets[..], &w.path[..]);
    let mut lent =
        |rules: u8| stack::taken(|| used(library::check_with(rules, [s, c, t], &mut buffer, &mut workspace)));
    let (flat, own) = (lent(0), lent(OWN));
    let stepped = stack::taken(|| used(library::steps_step([s, c, t], Steps::begun(0), &mut buffer)));
    let with = |buffer: &mut [u8], workspace: &mut [u32]| {
        used(library::steps_step_with([s, c, t], Steps::begun(OWN), buffer, workspace))
    };
    let stepped_with = stack::taken(|| with(&mut buffer, &mut workspace));
    [
        ("check", stack::taken(|| used(library::check(s, c, t, &mut buffer)))),
        ("check, workspace lent", flat),
        ("check, workspace lent, own bodies", own),
        ("step", stepped),
        ("step, workspace lent, own bodies", stepped_with),
        ("sums", stack::taken(|| used(library::sums(c, &mut buffer)))),
        ("sums, own bodies", stack::taken(|| used(library::sums_with(OWN, c, &mut buffer)))),
        ("windows", stack::taken(|| used(library::windows(c, 60, &mut buffer)))),
        ("lookup", stack::taken(|| used(library::lookup(s, t, p, &mut buffer)))),
    ]
}

// ─── The plot ───

fn panels() -> [Panel; 3] {
    let sizes = workloads::sizes().into_iter().map(|w| (w.condition.len() as f64, check(&w))).collect();
    let counts = workloads::target_counts().into_iter().map(|(count, w)| (count as f64, check(&w))).collect();
    let reports = workloads::report_counts().into_iter().map(|(count, w)| (count as f64, check(&w))).collect();
    [
        panel("Check, one target", "bytes of the condition", sizes),
        panel("Check, a condition of 4 KB", "targets", counts),
        panel("Check, 1,360 mistakes for each target", "reports", reports),
    ]
}

fn panel(title: &str, across: &'static str, measured: Vec<(f64, Times)>) -> Panel {
    let line = |name, colour, pick: &dyn Fn(&Times) -> Option<f64>| Line {
        name,
        colour,
        points: measured.iter().filter_map(|(x, times)| pick(times).map(|y| (*x, y))).collect(),
    };
    let lines = vec![
        line("Rust alone", "#8a8a8a", &|t| t.alone),
        line("Rust with reading", "#c8641e", &|t| Some(t.with_reading)),
        line("ours", "#1f6fb4", &|t| t.ours),
    ];
    Panel { title: title.to_string(), across, lines }
}

// ─── The page ───

/// Puts each text between its marks in BENCHMARKS.md, and the plot beside it.
fn write(folder: &Path, parts: &[(&str, &String)]) {
    let page = folder.join("BENCHMARKS.md");
    let mut text = fs::read_to_string(&page).expect("BENCHMARKS.md stands in the folder");
    for (name, part) in parts {
        text = replaced(&text, name, part);
    }
    fs::write(page, text).expect("BENCHMARKS.md can be written");
    fs::write(folder.join("benchmark.svg"), plot::svg(&panels())).expect("the plot can be written");
}

fn replaced(text: &str, name: &str, part: &str) -> String {
    let (begin, end) = (format!("<!-- {name}: begin -->\n"), format!("<!-- {name}: end -->"));
    let (before, rest) = text.split_once(&begin).expect("a mark where the part begins");
    let (_, after) = rest.split_once(&end).expect("a mark where the part ends");
    format!("{before}{begin}{}\n{end}{after}", part.trim_end())
}
