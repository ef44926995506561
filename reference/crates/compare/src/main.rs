//! The library against the original, body by body, in one process.
mod crash;
mod judge;
mod ours;
mod quarrels;
mod reader;
mod shortest;
mod shrink;
mod tables;
mod tally;

use generate::Family;
use judge::{Difference, Verdict};
use original::THREAD_STACK;
use ours::{Given, Library};
use reader::Reader;
use std::io::{IsTerminal, Write};
use std::panic::{AssertUnwindSafe, catch_unwind};
use std::process::ExitCode;
use std::sync::atomic::{AtomicBool, AtomicU64, Ordering};
use std::time::{Duration, Instant};
use tally::Tally;

const USAGE: &str = "\
usage: compare SEED COUNT     the first COUNT generated bodies of SEED
       compare --bytes FILE   the body in FILE
       compare quarrels SEED COUNT     generated bodies of SEED until COUNT have a failed equation, through the tool of request f
       compare quarrels --bytes FILE   the body in FILE, through that tool
       compare shortest SEED COUNT     the same through the search of request n, with several numbers of subsets each
       compare shortest --bytes FILE
";

/// How many indices a thread takes at a time.
const RANGE: u64 = 50;
/// Seconds after which a body counts as one without an answer.
const PATIENCE: u64 = 120;
/// How many smaller bodies are tried, and for how long.
const SHRINK_TRIES: usize = 20_000;
const SHRINK_SECONDS: u64 = 20;

fn main() -> ExitCode {
    let args: Vec<String> = std::env::args().skip(1).collect();
    let args: Vec<&str> = args.iter().map(String::as_str).collect();
    judge::hide_panics_of_the_source();
    crash::tell();
    match command(&args) {
        Ok(true) => ExitCode::SUCCESS,
        Ok(false) => ExitCode::FAILURE,
        Err(fault) => {
            eprint!("compare: {fault}");
            ExitCode::from(2)
        }
    }
}

/// Whether nothing differs, or why the command cannot be done.
fn command(args: &[&str]) -> Result<bool, String> {
    let number = |s: &str| s.parse::<u64>().map_err(|_| format!("{s} is no number\n{USAGE}"));
    match args {
        [reader::COMMAND] => {
            reader::serve(|bytes| body::read(bytes).err()).map_err(|e| format!("{e}\n"))?;
            Ok(true)
        }
        ["--bytes", file] => {
            let bytes = std::fs::read(file).map_err(|e| format!("{file}: {e}\n"))?;
            let tally = run(None, 1, &|_| (None, bytes.clone()))?;
            print!("{}{}{}", smallest(&tally), tally.differences(None), tally.judged());
            Ok(tally.different() == 0)
        }
        ["quarrels", what, of] => tool(what, of, quarrels::file, quarrels::generated),
        ["shortest", what, of] => tool(what, of, shortest::file, shortest::generated),
        [seed, count] => {
            let (seed, count) = (number(seed)?, number(count)?);
            let tally = run(Some(seed), count, &|index| {
                let (family, bytes) = generate::body(seed, index);
                (Some(family), bytes)
            })?;
            print!("{}{}", smallest(&tally), tally.differences(Some(seed)));
            println!("seed {seed}, bodies 0 to {}", count.saturating_sub(1));
            print!("{}\n{}", tally.families(), tally.judged());
            Ok(tally.different() == 0)
        }
        _ => Err(USAGE.to_string()),
    }
}

/// `SEED COUNT` or `--bytes FILE`, through one of the tools.
fn tool(what: &str, of: &str, file: fn(&[u8]) -> bool, generated: fn(u64, u64) -> bool) -> Result<bool, String> {
    if what == "--bytes" {
        return Ok(file(&std::fs::read(of).map_err(|e| format!("{of}: {e}\n"))?));
    }
    let number = |s: &str| s.parse::<u64>().map_err(|_| format!("{s} is no number\n{USAGE}"));
    Ok(generated(number(what)?, number(of)?))
}

/// The smallest body that differs, made smaller still; empty where that gives nothing.
fn smallest(tally: &Tally) -> String {
    let Some(found) = tally.found().first() else { return String::new() };
    let Ok(body) = String::from_utf8(found.bytes.clone()) else { return String::new() };
    let (send, receive) = std::sync::mpsc::channel();
    let work = move || {
        let Ok(mut reader) = Reader::new() else { return };
        let mut library = Library::new();
        let start = Instant::now();
        let mut verdict = |text: &str| match one(text.as_bytes(), &mut reader, &mut library).1 {
            Verdict::Different(difference) => Some(difference),
            Verdict::Alike(_) => None,
        };
        let least = shrink::shrink(&body, SHRINK_TRIES, |text| {
            start.elapsed().as_secs() < SHRINK_SECONDS && verdict(text).is_some()
        });
        let _ = send.send(verdict(&least).map(|difference| (least.clone().into_bytes(), difference)));
    };
    // A thread that gets no answer is left running, and the program ends without it.
    let thread = std::thread::Builder::new().stack_size(THREAD_STACK).spawn(work);
    match thread.map(|_| receive.recv_timeout(Duration::from_secs(2 * SHRINK_SECONDS))) {
        Ok(Ok(Some((bytes, difference)))) if bytes.len() < found.bytes.len() => {
            format!("body {} made smaller, {}", found.index, tally::shown(&bytes, &difference))
        }
        _ => String::new(),
    }
}

/// A body by its index.
type Bodies<'a> = &'a (dyn Fn(u64) -> (Option<Family>, Vec<u8>) + Sync);

/// What the threads share.
struct Shared {
    seed: Option<u64>,
    count: u64,
    next: AtomicU64,
    done: AtomicU64,
    different: AtomicU64,
    ended: AtomicBool,
    /// Of each thread: the body it is at, and the millisecond of its start; none where the latter is 0.
    at: Vec<(AtomicU64, AtomicU64)>,
    start: Instant,
}

/// The first `count` bodies on all cores.
fn run(seed: Option<u64>, count: u64, bodies: Bodies) -> Result<Tally, String> {
    let threads = std::thread::available_parallelism().map_or(1, |n| n.get()).min(count.max(1) as usize);
    let shared = Shared {
        seed,
        count,
        next: AtomicU64::new(0),
        done: AtomicU64::new(0),
        different: AtomicU64::new(0),
        ended: AtomicBool::new(false),
        at: (0..threads).map(|_| Default::default()).collect(),
        start: Instant::now(),
    };
    std::thread::scope(|scope| {
        let spawn = |thread: usize| {
            let shared = &shared;
            let builder = std::thread::Builder::new().stack_size(THREAD_STACK);
            builder.spawn_scoped(scope, move || work(shared, thread, bodies))
        };
        let workers: Vec<_> = (0..threads).map(spawn).collect();
        scope.spawn(|| watch(&shared, bodies));
        let mut all = Ok(Tally::default());
        for worker in workers {
            let tally = match worker.map(|worker| worker.join()) {
                Ok(Ok(tally)) => tally,
                Ok(Err(_)) => Err("a thread panicked\n".to_string()),
                Err(e) => Err(format!("{e}\n")),
            };
            all = all.and_then(|mut all| {
                all.merge(tally?);
                Ok(all)
            });
        }
        shared.ended.store(true, Ordering::Relaxed);
        all
    })
}

/// One thread: range by range.
fn work(shared: &Shared, thread: usize, bodies: Bodies) -> Result<Tally, String> {
    let mut reader = Reader::new().map_err(|e| format!("{e}\n"))?;
    let mut library = Library::new();
    let mut tally = Tally::default();
    loop {
        let first = shared.next.fetch_add(RANGE, Ordering::Relaxed);
        if first >= shared.count {
            return Ok(tally);
        }
        for index in first..shared.count.min(first + RANGE) {
            let (at, since) = &shared.at[thread];
            crash::at(index);
            at.store(index, Ordering::Relaxed);
            since.store(shared.start.elapsed().as_millis() as u64 + 1, Ordering::Release);
            let (family, bytes) = bodies(index);
            let (given, verdict) = one(&bytes, &mut reader, &mut library);
            shared.different.fetch_add(u64::from(matches!(verdict, Verdict::Different(_))), Ordering::Relaxed);
            tally.count(index, family, &bytes, given.as_ref(), verdict);
            since.store(0, Ordering::Release);
            shared.done.fetch_add(1, Ordering::Relaxed);
        }
    }
}

/// A body through the second process, the original and the library.
fn one(bytes: &[u8], reader: &mut Reader, library: &mut Library) -> (Option<Given>, Verdict) {
    let mut given = None;
    let verdict = catch_unwind(AssertUnwindSafe(|| {
        let got = given.insert(library.give(bytes));
        judge::compare(judge::expected(bytes, reader.read(bytes)), got)
    }));
    let verdict = verdict.unwrap_or_else(|thrown| {
        let message = match (thrown.downcast_ref::<String>(), thrown.downcast_ref::<&str>()) {
            (Some(s), _) => s.as_str(),
            (_, Some(s)) => s,
            _ => "",
        };
        // The tables that are lent may be left in any state.
        *library = Library::new();
        let got = given.as_ref().map_or(String::new(), |g: &Given| g.text.clone());
        Verdict::Different(Difference { what: format!("panic: {message}"), expected: String::new(), got })
    });
    (given, verdict)
}

/// Shows how far the threads are, on one line of a terminal or with a line for each percent, and ends the program where a body has no
/// answer.
fn watch(shared: &Shared, bodies: Bodies) {
    let terminal = std::io::stderr().is_terminal();
    let mut percent = None;
    loop {
        let ended = shared.ended.load(Ordering::Relaxed);
        let done = shared.done.load(Ordering::Relaxed);
        let now = done * 100 / shared.count.max(1);
        if percent != Some(now) || terminal {
            percent = Some(now);
            let different = shared.different.load(Ordering::Relaxed);
            let seconds = shared.start.elapsed().as_secs();
            let line = format!("{now:>3}%, {done} of {} bodies, {different} unexplained, {seconds} s", shared.count);
            let (before, after) = if terminal { ("\r", "") } else { ("", "\n") };
            let _ = write!(std::io::stderr(), "{before}{line}{after}");
        }
        if ended {
            if terminal {
                eprintln!();
            }
            return;
        }
        for (at, since) in &shared.at {
            let since = since.load(Ordering::Acquire);
            let index = at.load(Ordering::Relaxed);
            if since > 0 && shared.start.elapsed().as_millis() as u64 > since + 1_000 * PATIENCE {
                let (family, bytes) = bodies(index);
                let name = tally::name(shared.seed, index, family);
                println!("{name}: no answer in {PATIENCE} s\n-- body\n{}--", String::from_utf8_lossy(&bytes));
                std::process::exit(1);
            }
        }
        std::thread::sleep(Duration::from_millis(100));
    }
}
