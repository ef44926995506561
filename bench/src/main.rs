//! The proved checker against the original, in one process and on the same bodies.
mod agree;
mod bodies;
mod conflicts;
#[cfg(feature = "fresh-start")]
mod fresh_start;
mod lent;
mod measure;
mod original;
mod ours;
mod plot;
mod section;
mod section_shortest;
mod shortest;
mod speed;

use agree::Original;
use measure::{Clock, Figure, Series, measure, timed};
use ours::Tables;
use std::cell::RefCell;
use std::process::ExitCode;
use std::time::Duration;

const USAGE: &str = "\
usage: bench run [SPEED.md]      measures all bodies; writes the tables and, beside them, speed.svg; by default ../docs/SPEED.md
       bench conflicts [SPEED.md]     the section on the minimal conflict alone
       bench shortest [SPEED.md]      the section on the shortest conflict alone
       bench fresh-start         the search for it beside one with a fresh start for each subset, if built with that feature
       bench search [SHAPE]      the shapes of large minimal conflicts, with all numbers that are tried
       bench one FILE            the four times of one body
       bench profile FILE N [check]   runs ours alone N times: from bytes to a report, or to tables
       bench list DIR            writes all bodies to a folder
       bench original            the original alone on the body on standard input: nanoseconds of types and report, and the text
";

/// What the original's recursion may need.
const STACK: usize = 256 << 20;
/// Batches of each series on ordinary bodies, and on an adversarial one.
const TURNS: usize = 25;
const TURNS_ADVERSARIAL: usize = 15;
/// Where one call takes longer, there are fewer batches.
const LONG: Duration = Duration::from_millis(40);
const TURNS_LONG: usize = 3;

fn main() -> ExitCode {
    let thread = std::thread::Builder::new().stack_size(STACK).spawn(|| {
        let args: Vec<String> = std::env::args().skip(1).collect();
        let args: Vec<&str> = args.iter().map(String::as_str).collect();
        command(&args)
    });
    match thread.unwrap().join().unwrap() {
        Ok(()) => ExitCode::SUCCESS,
        Err(fault) => {
            eprintln!("{fault}");
            ExitCode::FAILURE
        }
    }
}

fn command(args: &[&str]) -> Result<(), String> {
    match args {
        ["run"] => run("../docs/SPEED.md"),
        ["run", file] => run(file),
        ["conflicts"] => run_section("../docs/SPEED.md", conflicts_section),
        ["conflicts", file] => run_section(file, conflicts_section),
        ["shortest"] => run_section("../docs/SPEED.md", shortest_section),
        ["shortest", file] => run_section(file, shortest_section),
        #[cfg(feature = "fresh-start")]
        ["fresh-start"] => fresh_start::run(),
        ["search"] => Ok(conflicts::search(None)),
        ["search", shape] => Ok(conflicts::search(Some(shape))),
        ["one", file] => one(&read(file)?),
        ["profile", file, count] => profile(&read(file)?, count, false),
        ["profile", file, count, "check"] => profile(&read(file)?, count, true),
        ["list", folder] => list(folder),
        ["original"] => agree::as_child(),
        _ => Err(USAGE.to_string()),
    }
}

fn read(file: &str) -> Result<Vec<u8>, String> {
    std::fs::read(file).map_err(|e| format!("{file}: {e}"))
}

/// The four series.
pub struct Four {
    /// From bytes to tables.
    pub tables: Figure,
    /// From bytes to a report.
    pub report: Figure,
    /// The original's `FunCx` and resolution alone.
    pub original_types: Option<Figure>,
    /// The original from bytes to a report.
    pub original_report: Option<Figure>,
}

/// The four series on these bodies, those of the original only if it is to be run here.
fn four(bodies: &[&[u8]], tables: &mut Tables, with_original: bool, turns: usize) -> Four {
    let tables = RefCell::new(tables);
    let mut series: Vec<Series> = vec![
        Box::new(|b, clock| {
            let mut tables = tables.borrow_mut();
            timed(clock, || tables.check(bodies[b]))
        }),
        Box::new(|b, clock| {
            let mut tables = tables.borrow_mut();
            timed(clock, || tables.report(bodies[b]))
        }),
    ];
    if with_original {
        series.push(Box::new(|b, clock| original::timed_types(bodies[b], clock).expect("no refusal")));
        series.push(Box::new(|b, clock| timed(clock, || original::report(bodies[b]))));
    }
    let figures = measure(&mut series, bodies.len(), turns);
    Four {
        tables: figures[0],
        report: figures[1],
        original_types: figures.get(2).copied(),
        original_report: figures.get(3).copied(),
    }
}

/// The four series on one body that the original may not end on.
fn four_of_one(bytes: &[u8], tables: &mut Tables, original: Original) -> Four {
    tables.text(bytes);
    let long = timed(Clock::Thread, || tables.report(bytes)) > LONG;
    let turns = if long { TURNS_LONG } else { TURNS_ADVERSARIAL };
    match original {
        Original::DoesNotEnd => four(&[bytes], tables, false, turns),
        // One run is enough where it takes long.
        Original::Ended { types, report } if types.max(report) > 4 * LONG => {
            let ours = four(&[bytes], tables, false, turns);
            Four { original_types: Some(Figure::once(types)), original_report: Some(Figure::once(report)), ..ours }
        }
        Original::Ended { .. } => four(&[bytes], tables, true, turns),
    }
}

/// The bodies of one size.
pub struct Ordinary {
    pub nodes: usize,
    pub bodies: usize,
    /// Mean bytes and errors of a body.
    pub bytes: f64,
    pub errors: f64,
    pub four: Four,
    /// The parts of the original's report, nanoseconds for a body.
    pub stages: Vec<(&'static str, f64)>,
}

pub struct Adversarial {
    pub body: bodies::adversarial::Adversarial,
    pub four: Four,
}

fn run(file: &str) -> Result<(), String> {
    let mut tables = Tables::new();
    let mut ordinary = Vec::new();
    for nodes in bodies::SIZES {
        let of_size = bodies::ordinary(nodes);
        ordinary.push(measure_ordinary(nodes, &of_size, &mut tables)?);
        eprintln!("{}", speed::line(&format!("{nodes} nodes"), &ordinary.last().unwrap().four));
    }
    let mut adversarial = Vec::new();
    for body in bodies::adversarial::all() {
        assert_eq!(body::read(&body.bytes).map(|b| b.nodes.len()), Ok(bodies::NODES));
        let original = agree::check(body.name, &body.bytes, &mut tables)?;
        let four = four_of_one(&body.bytes, &mut tables, original);
        eprintln!("{}", speed::line(body.name, &four));
        adversarial.push(Adversarial { body, four });
    }
    let figure = std::path::Path::new(file).with_file_name("speed.svg");
    std::fs::write(&figure, plot::svg(&ordinary)).map_err(|e| format!("{}: {e}", figure.display()))?;
    let kept = speed::kept(&std::fs::read_to_string(file).unwrap_or_default());
    let text = speed::document(&ordinary, &adversarial, &tables, &kept);
    let text = section::put(&text, &conflicts_section()?);
    let text = section::put(&text, &shortest_section()?);
    std::fs::write(file, &text).map_err(|e| format!("{file}: {e}"))
}

/// Measures the minimal conflict.
fn conflicts_section() -> Result<String, String> {
    Ok(section::text(&conflicts::measured()?))
}

/// Measures the shortest conflict.
fn shortest_section() -> Result<String, String> {
    Ok(section_shortest::text(&shortest::measured()?))
}

/// Puts this section into a document, and leaves all else in it as it is.
fn run_section(file: &str, section: fn() -> Result<String, String>) -> Result<(), String> {
    let document = String::from_utf8(read(file)?).map_err(|e| format!("{file}: {e}"))?;
    let text = section::put(&document, &section()?);
    std::fs::write(file, &text).map_err(|e| format!("{file}: {e}"))
}

fn measure_ordinary(nodes: usize, of_size: &[Vec<u8>], tables: &mut Tables) -> Result<Ordinary, String> {
    let count = of_size.len();
    let mut errors = 0;
    for (number, bytes) in of_size.iter().enumerate() {
        assert_eq!(body::read(bytes).map(|b| b.nodes.len()), Ok(nodes));
        if let Original::DoesNotEnd = agree::check(&format!("ordinary-{nodes}-{number}"), bytes, tables)? {
            return Err(format!("ordinary-{nodes}-{number}: the original does not end"));
        }
        errors += tables.text(bytes).lines().filter(|l| l.starts_with("error=")).count();
    }
    let bodies: Vec<&[u8]> = of_size.iter().map(Vec::as_slice).collect();
    let four = four(&bodies, tables, true, TURNS);
    Ok(Ordinary {
        nodes,
        bodies: count,
        bytes: bodies.iter().map(|b| b.len()).sum::<usize>() as f64 / count as f64,
        errors: errors as f64 / count as f64,
        four,
        stages: stages(&bodies),
    })
}

/// The parts of the original's report: of each body the median of nine, and the mean over the bodies.
fn stages(bodies: &[&[u8]]) -> Vec<(&'static str, f64)> {
    let mut sums: Vec<(&'static str, f64)> = Vec::new();
    for bytes in bodies {
        let runs: Vec<_> = (0..9).map(|_| original::stages(bytes).expect("no refusal")).collect();
        for stage in 0..runs[0].len() {
            let mut times: Vec<Duration> = runs.iter().map(|r| r[stage].1).collect();
            times.sort();
            if sums.len() <= stage {
                sums.push((runs[0][stage].0, 0.0));
            }
            sums[stage].1 += times[times.len() / 2].as_nanos() as f64 / bodies.len() as f64;
        }
    }
    sums
}

fn one(bytes: &[u8]) -> Result<(), String> {
    let mut tables = Tables::new();
    let original = agree::check("this body", bytes, &mut tables)?;
    let four = four_of_one(bytes, &mut tables, original);
    println!("{}", speed::line("this body", &four));
    Ok(())
}

fn profile(bytes: &[u8], count: &str, check: bool) -> Result<(), String> {
    let count: u32 = count.parse().map_err(|_| format!("{count} is no number"))?;
    let mut tables = Tables::new();
    tables.text(bytes);
    let mut answer = 0;
    let time = timed(Clock::Thread, || {
        for _ in 0..count {
            answer = if check { tables.check(bytes) } else { tables.report(bytes) };
        }
    });
    println!("answer {answer}, {:?} each", time / count.max(1));
    Ok(())
}

fn list(folder: &str) -> Result<(), String> {
    std::fs::create_dir_all(folder).map_err(|e| format!("{folder}: {e}"))?;
    let put = |name: &str, bytes: &[u8]| {
        let file = format!("{folder}/{name}");
        std::fs::write(&file, bytes).map_err(|e| format!("{file}: {e}"))
    };
    for nodes in bodies::SIZES {
        for (number, bytes) in bodies::ordinary(nodes).iter().enumerate() {
            put(&format!("ordinary-{nodes}-{number:02}"), bytes)?;
        }
    }
    bodies::adversarial::all().iter().try_for_each(|body| put(body.name, &body.bytes))?;
    bodies::conflicts::all().iter().try_for_each(|body| put(&body.name, &body.bytes))?;
    bodies::shortcuts::all().iter().try_for_each(|body| put(&format!("shortest-{}", body.name()), &body.bytes))
}
