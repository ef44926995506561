//! The original checker, document 01's rules, and bodies to compare them on.
mod by_hand;
mod cases;
mod conflicts;
mod features;
mod many;
mod recorded;
mod run_files;
mod sample;
mod shortest;
mod text;
mod wrong;

use cases::Case;
use original::{THREAD_STACK, Want};
use quarrel::Form;
use rules::tables::{Left, Lent};
use std::io::{Read, Write};
use std::process::ExitCode;

const USAGE: &str = "\
usage: reference report [FILE]        what the original gives for a body, in document 01's words; FILE is standard input if absent
       reference source [FILE]        what the source does with it where it is let go on behind a ring and panics stay panics
       reference rules [FILE]         what document 01 gives for it, by the second program
       reference tables [FILE]        the same, and behind it counts, marks, equations and the hash of all cells
       reference entries [FILE]       each entry of `unify` in the original: node, expected, got
       reference families             the families of generated bodies
       reference body SEED INDEX      a generated body
       reference many SEED COUNT      the first COUNT bodies of SEED through both programs: counts, and what differs
       reference stream WHAT SEED COUNT   the same bodies one behind the other, WHAT being text, original, rules or samples:
                                      as read_run reads them, what the original and the rules give, and as replay reads them
       reference quarrel [where] [--room N] [FILE]   the tool of request f: the equations that conflict, with `where` also the node
                                      and the sides of each; N the bytes of the lent output
       reference quarrels SEED COUNT  the tool on generated bodies with a failed equation, until COUNT are answered 0: counts, and
                                      whether each set is minimal
       reference shortest NUMBER [where] [--room N] [FILE]   the search of request n, with the number of subsets it may test
       reference shortests SEED COUNT the search on COUNT generated bodies whose set of request f has two equations or more, with several
                                      numbers each: counts, and whether each is right by other means
       reference test FILE..          the cases of these files through both programs
       reference test-quarrels FILE   the cases of this file through the tool of request f
       reference test-shortest FILE   the cases of this file through the search of request n
       reference replay DIR           the recorded samples in DIR through the rules, against what is recorded
       reference wrong LIST WORKSPACE DIR   wrong versions of the rules' program on the recorded samples
       reference sample DIR LENT FILE..   writes the recorded samples to DIR, with the cases of these files; those of LENT are
                                      about the lengths of the lent tables and the output
       reference sample-writing DIR FROM   writes to DIR the recorded samples of FROM once more, for write_run, and what is expected of them
       reference sample-quarrels DIR FILE   writes the bodies of quarrel_run to DIR and what is expected of them, with the cases of
                                      this file
       reference sample-shortest DIR FILE   the same of shortest_run
";

fn main() -> ExitCode {
    // A panic of the source is told in the report and nowhere else.
    std::panic::set_hook(Box::new(|_| {}));
    let thread = std::thread::Builder::new().stack_size(THREAD_STACK).spawn(|| {
        let args: Vec<String> = std::env::args().skip(1).collect();
        let args: Vec<&str> = args.iter().map(String::as_str).collect();
        command(&args)
    });
    match thread.unwrap().join() {
        Ok(Ok(true)) => ExitCode::SUCCESS,
        Ok(Ok(false)) => ExitCode::FAILURE,
        Ok(Err(fault)) => {
            eprintln!("reference: {fault}");
            ExitCode::from(2)
        }
        Err(_) => {
            eprintln!("reference: panic");
            ExitCode::from(3)
        }
    }
}

/// Whether all is well, or why the command cannot be done.
fn command(args: &[&str]) -> Result<bool, String> {
    match args {
        ["report", file @ ..] => show(cases::report(&bytes(file)?).text()),
        ["source", file @ ..] => show(walk(&bytes(file)?, Want { source: true, entries: false }).0),
        ["rules", file @ ..] => show(rules::report(&bytes(file)?)),
        ["tables", file @ ..] => show(Left::of(&bytes(file)?, &Lent::of("")).lines()),
        ["entries", file @ ..] => show(walk(&bytes(file)?, Want { source: false, entries: true }).1),
        ["families"] => show(generate::describe()),
        ["body", seed, index] => {
            let (_, bytes) = generate::body(number(seed)?, number(index)?);
            std::io::stdout().write_all(&bytes).map_err(|e| e.to_string())?;
            Ok(true)
        }
        ["many", seed, count] => Ok(many::run(number(seed)?, number(count)?)),
        ["quarrel", args @ ..] => quarrel(args),
        ["quarrels", seed, count] => Ok(conflicts::run(number(seed)?, number(count)?)),
        ["shortest", amount, args @ ..] => shortest(number(amount)?, args),
        ["shortests", seed, count] => Ok(shortest::run(number(seed)?, number(count)?)),
        ["stream", what, seed, count] => stream(what, number(seed)?, number(count)?),
        ["test", files @ ..] if !files.is_empty() => test(files),
        ["test-quarrels", file] => conflicts::test(&read(file)?),
        ["test-shortest", file] => shortest::test(&read(file)?),
        ["sample-quarrels", dir, file] => conflicts::files(&read(file)?)?.write(dir).map(|()| true),
        ["sample-shortest", dir, file] => shortest::files(&read(file)?)?.write(dir).map(|()| true),
        ["replay", dir] => replay(dir),
        ["wrong", list, workspace, dir] => wrong::run(list, workspace, dir),
        ["sample", dir, lent, files @ ..] => write(dir, sample::files(&read_cases(&[lent])?, &read_cases(files)?)?),
        ["sample-writing", dir, from] => write(dir, recorded::write_run_files(read(&format!("{from}/stdin"))?)?),
        _ => Err(USAGE.to_string()),
    }
}

fn show(text: String) -> Result<bool, String> {
    print!("{text}");
    Ok(true)
}

fn number(s: &str) -> Result<u64, String> {
    s.parse().map_err(|_| format!("{s} is no number"))
}

fn read(file: &str) -> Result<String, String> {
    std::fs::read_to_string(file).map_err(|e| format!("{file}: {e}"))
}

fn bytes(file: &[&str]) -> Result<Vec<u8>, String> {
    match file {
        [] => {
            let mut all = Vec::new();
            std::io::stdin().read_to_end(&mut all).map_err(|e| e.to_string())?;
            Ok(all)
        }
        [file] => std::fs::read(file).map_err(|e| format!("{file}: {e}")),
        _ => Err(USAGE.to_string()),
    }
}

/// A body through the original: what came of it, and the entries of `unify`.
fn walk(bytes: &[u8], want: Want) -> (String, String) {
    let b = match body::read(bytes) {
        Ok(b) => b,
        Err(r) => return (cases::refused(r), String::new()),
    };
    let run = original::run(&b, want);
    let entries = run.entries.iter().map(|e| {
        let place = e.place.map_or("sig".to_string(), |n| n.to_string());
        format!("entry={place},{},{}\n", e.expected, e.got)
    });
    (run.outcome.text(), entries.collect())
}

/// `[where] [--room N] [FILE]`.
fn quarrel(args: &[&str]) -> Result<bool, String> {
    let (form, room, file) = form_and_room(args)?;
    show(quarrel::give(&bytes(file)?, form, room).lines())
}

/// The same behind the number of subsets that may be tested.
fn shortest(number: u64, args: &[&str]) -> Result<bool, String> {
    let (form, room, file) = form_and_room(args)?;
    show(quarrel::shortest::give(&bytes(file)?, number, form, room).lines())
}

/// `[where] [--room N]`, and what stands behind them.
fn form_and_room<'a, 'b>(args: &'a [&'b str]) -> Result<(Form, Option<usize>, &'a [&'b str]), String> {
    let (form, args) = match args {
        ["where", args @ ..] => (Form::Where, args),
        args => (Form::Number, args),
    };
    match args {
        ["--room", room, file @ ..] => Ok((form, Some(number(room)? as usize), file)),
        file => Ok((form, None, file)),
    }
}

fn stream(what: &str, seed: u64, count: u64) -> Result<bool, String> {
    let mut out = std::io::BufWriter::new(std::io::stdout().lock());
    for index in 0..count {
        let text = streamed(what, seed, index)?;
        out.write_all(text.as_bytes()).map_err(|e| e.to_string())?;
    }
    Ok(true)
}

fn streamed(what: &str, seed: u64, index: u64) -> Result<String, String> {
    let (family, bytes) = generate::body(seed, index);
    let head = format!("{}-{index}", family.name());
    Ok(match what {
        "text" => format!("{head} {}\n", text::flat(&bytes)),
        "original" => format!("== {head}\n{}", cases::report(&bytes).text()),
        "rules" => format!("== {head}\n{}", rules::report(&bytes)),
        "samples" => sample::lines(&head, &text::flat(&bytes), &Left::of(&bytes, &Lent::of(&head))),
        _ => return Err(USAGE.to_string()),
    })
}

fn read_cases(files: &[&str]) -> Result<Vec<Case>, String> {
    let mut all = Vec::new();
    for file in files {
        all.extend(cases::parse(&read(file)?).map_err(|e| format!("{file}: {e}"))?);
    }
    Ok(all)
}

fn test(files: &[&str]) -> Result<bool, String> {
    let (mut passed, mut failed) = (0, 0);
    for case in read_cases(files)? {
        let faults = cases::faults(&case);
        if faults.is_empty() {
            passed += 1;
        } else {
            failed += 1;
            println!("{} ({})\n{}", case.name, case.why.join(" "), faults.join(""));
        }
    }
    println!("{passed} passed, {failed} failed");
    Ok(failed == 0)
}

fn replay(dir: &str) -> Result<bool, String> {
    let (mut same, mut different) = (0, 0);
    for sample in recorded::parse(&read(&format!("{dir}/stdin"))?)? {
        if sample.left == Left::of(&sample.bytes, &Lent::of(sample.name)).line() {
            same += 1;
        } else {
            different += 1;
            println!("{} differs", sample.name);
        }
    }
    println!("{same} the same, {different} different");
    Ok(different == 0)
}

fn write(dir: &str, files: Vec<(&str, String)>) -> Result<bool, String> {
    for (name, text) in files {
        let path = format!("{dir}/{name}");
        std::fs::write(&path, text).map_err(|e| format!("{path}: {e}"))?;
    }
    Ok(true)
}
