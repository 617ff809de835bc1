//! Times the core and dame-rs beside each other, entry by entry, in one process and in turns, and compares what they
//! answer. `bench/run` builds and starts it.
//!
//!     bench [--rounds N] [--processes N] [WORD ..]    times; WORD: only entries whose name contains one of them
//!     bench --instructions [WORD ..]                  instructions, counted by callgrind
mod boards;
mod core;
mod entries;

use entries::{Entry, entries};
use std::env;
use std::fs;
use std::hint::black_box;
use std::process::{Command, ExitCode};

#[repr(C)]
struct Time {
    seconds: i64,
    nanoseconds: i64,
}

unsafe extern "C" {
    fn clock_gettime(clock: i32, time: *mut Time) -> i32;
}

/// The processor time of this thread, in nanoseconds.
fn now() -> f64 {
    const THREAD_CPU: i32 = 3;
    let mut t = Time { seconds: 0, nanoseconds: 0 };
    unsafe {
        clock_gettime(THREAD_CPU, &mut t);
    }
    t.seconds as f64 * 1e9 + t.nanoseconds as f64
}

// Callgrind counts what happens below these two, by their names.
#[inline(never)]
#[unsafe(no_mangle)]
fn run_rust(e: &Entry) -> u64 {
    black_box(black_box(&e.rust)())
}

#[inline(never)]
#[unsafe(no_mangle)]
fn run_core(e: &Entry) -> u64 {
    black_box(black_box(&e.core)())
}

/// Callgrind writes down what it has counted whenever this is called.
#[inline(never)]
#[unsafe(no_mangle)]
fn run_counted() {
    black_box(());
}

/// The time of one of `turns` runs.
fn time(turns: usize, run: fn(&Entry) -> u64, e: &Entry) -> f64 {
    let from = now();
    for _ in 0..turns {
        black_box(run(e));
    }
    (now() - from) / turns as f64
}

/// The least times of a call in nanoseconds: the Rust's and the core's, in turns, each turn 3 ms or more.
fn measure(e: &Entry, rounds: usize) -> (f64, f64) {
    let once = time(1, run_rust, e).max(1.0);
    let turns = ((3e6 / once).ceil() as usize).clamp(1, 1000);
    let (mut rust, mut core) = (f64::MAX, f64::MAX);
    for _ in 0..rounds {
        rust = rust.min(time(turns, run_rust, e));
        core = core.min(time(turns, run_core, e));
    }
    (rust / e.calls as f64, core / e.calls as f64)
}

/// One line of a table: the numbers of the Rust and of the core, and their ratio.
fn row(name: &str, rust: f64, core: f64) {
    println!("{name:40} {rust:>14.1} {core:>14.1} {:>7.2}", core / rust);
}

fn head(what: &str) {
    println!("{what:40} {:>14} {:>14} {:>7}", "the Rust", "the core", "ratio");
}

/// Runs this program again with these words and takes its lines of `NAME|RUST|CORE`.
fn again(words: &[String]) -> Vec<(String, f64, f64)> {
    let out = Command::new(env::current_exe().unwrap()).args(words).output().expect("the program again");
    assert!(out.status.success(), "{}", String::from_utf8_lossy(&out.stderr));
    let text = String::from_utf8(out.stdout).unwrap();
    text.lines()
        .map(|line| {
            let mut parts = line.split('|');
            let name = parts.next().unwrap().to_string();
            let mut number = || parts.next().unwrap().parse().unwrap();
            (name, number(), number())
        })
        .collect()
}

/// The least of several processes: where a stack lies decides much about a copy.
fn times(processes: usize, rounds: usize, words: &[String]) {
    let mut call = vec!["--measured".to_string(), rounds.to_string()];
    call.extend_from_slice(words);
    let mut least = again(&call);
    for _ in 1..processes {
        for (l, n) in least.iter_mut().zip(again(&call)) {
            *l = (n.0, l.1.min(n.1), l.2.min(n.2));
        }
    }
    head(&format!("ns a call, least of {processes} x {rounds}"));
    for (name, rust, core) in least {
        row(&name, rust, core);
    }
}

/// Callgrind writes a file for each run: the Rust's and the core's of the first entry, of the second, and so on.
fn instructions(picked: &[&Entry], words: &[String]) {
    let folder = env::temp_dir().join(format!("bench-{}", std::process::id()));
    fs::create_dir_all(&folder).unwrap();
    let out = folder.join("out");
    let status = Command::new("valgrind")
        .arg("--tool=callgrind")
        .arg(format!("--callgrind-out-file={}", out.display()))
        .args(["--toggle-collect=run_rust", "--toggle-collect=run_core", "--dump-before=run_counted"])
        .arg(env::current_exe().unwrap())
        .arg("--run-once")
        .args(words)
        .output()
        .expect("valgrind")
        .status;
    assert!(status.success());
    let total = |n: usize| -> f64 {
        let text = fs::read_to_string(format!("{}.{n}", out.display())).unwrap();
        text.lines().find_map(|l| l.strip_prefix("totals: ")).unwrap().parse().unwrap()
    };
    head("instructions a call, by callgrind");
    for (i, e) in picked.iter().enumerate() {
        row(&e.name, total(2 * i + 1) / e.calls as f64, total(2 * i + 2) / e.calls as f64);
    }
    fs::remove_dir_all(folder).unwrap();
}

fn number(word: Option<&String>) -> usize {
    word.and_then(|w| w.parse().ok()).filter(|n| *n > 0).expect("a number above 0")
}

fn main() -> ExitCode {
    let words: Vec<String> = env::args().skip(1).collect();
    let (mut mode, mut rounds, mut processes, mut wanted) = ("", 9, 5, vec![]);
    let mut i = 0;
    while i < words.len() {
        match words[i].as_str() {
            "--rounds" => (rounds, i) = (number(words.get(i + 1)), i + 1),
            "--processes" => (processes, i) = (number(words.get(i + 1)), i + 1),
            "--measured" => (mode, rounds, i) = ("measured", number(words.get(i + 1)), i + 1),
            "--instructions" => mode = "instructions",
            "--run-once" => mode = "run once",
            word => wanted.push(word.to_string()),
        }
        i += 1;
    }

    let all = entries(&boards::material());
    let picked: Vec<&Entry> =
        all.iter().filter(|e| wanted.is_empty() || wanted.iter().any(|w| e.name.contains(w.as_str()))).collect();
    for e in &picked {
        if mode == "run once" {
            run_rust(e);
            run_counted();
            run_core(e);
            run_counted();
        } else if mode == "measured" {
            let (rust, core) = measure(e, rounds);
            println!("{}|{rust}|{core}", e.name);
        } else if run_rust(e) != run_core(e) {
            eprintln!("{}: the core and the Rust answer differently", e.name);
            return ExitCode::FAILURE;
        }
    }
    match mode {
        "" => times(processes, rounds, &wanted),
        "instructions" => instructions(&picked, &wanted),
        _ => {}
    }
    ExitCode::SUCCESS
}
