//! Whether the texts agree, before anything is timed. The original runs in a process of its own, which is ended after ten
//! seconds: it does not end on every body.
use crate::measure::{Clock, timed};
use crate::original;
use crate::ours::Tables;
use std::io::{Read, Write};
use std::process::{Command, Stdio};
use std::time::{Duration, Instant};

/// Seconds after which the original is given up.
pub const PATIENCE: u64 = 10;

/// What the original did with a body.
pub enum Original {
    /// How long its types and its report took, at the first run.
    Ended {
        types: Duration,
        report: Duration,
    },
    DoesNotEnd,
}

/// Runs the original on a body and compares all texts, or says what differs.
pub fn check(name: &str, bytes: &[u8], tables: &mut Tables) -> Result<Original, String> {
    let fault = |what: &str| Err(format!("{name}: {what}"));
    if tables.check(bytes) != 0 {
        return fault("not answered 0");
    }
    let ours = tables.text(bytes);
    if body::read(bytes).is_ok_and(|b| rules::check(&b).text != ours) {
        return fault("not the text of the rules' program");
    }
    match child(bytes).map_err(|e| format!("{name}: {e}"))? {
        None => Ok(Original::DoesNotEnd),
        Some((types, report, text)) if masked(&text) == masked(&ours) => Ok(Original::Ended { types, report }),
        Some(_) => fault("not the text of the original"),
    }
}

/// A report with CAUSE 0 throughout: without observers the original does not tell it.
fn masked(text: &str) -> String {
    let line = |line: &str| match line.strip_prefix("error=") {
        None => format!("{line}\n"),
        Some(rest) => {
            let mut fields: Vec<&str> = rest.split(',').collect();
            fields[1] = "0";
            format!("error={}\n", fields.join(","))
        }
    };
    text.lines().map(line).collect()
}

/// The original in a process of its own; none where it does not end.
fn child(bytes: &[u8]) -> Result<Option<(Duration, Duration, String)>, String> {
    let program = std::env::current_exe().map_err(|e| e.to_string())?;
    let spawned = Command::new(program).arg("original").stdin(Stdio::piped()).stdout(Stdio::piped()).spawn();
    let mut child = spawned.map_err(|e| e.to_string())?;
    let mut input = child.stdin.take().unwrap();
    input.write_all(bytes).map_err(|e| e.to_string())?;
    drop(input);
    let mut output = child.stdout.take().unwrap();
    let reader = std::thread::spawn(move || {
        let mut text = String::new();
        output.read_to_string(&mut text).map(|_| text)
    });
    let start = Instant::now();
    let status = loop {
        if let Some(status) = child.try_wait().map_err(|e| e.to_string())? {
            break status;
        }
        if start.elapsed() > Duration::from_secs(PATIENCE) {
            child.kill().map_err(|e| e.to_string())?;
            child.wait().map_err(|e| e.to_string())?;
            return Ok(None);
        }
        std::thread::sleep(Duration::from_micros(500));
    };
    let text = reader.join().unwrap().map_err(|e| e.to_string())?;
    if !status.success() {
        return Err(format!("the original ended with {status}"));
    }
    let (head, text) = text.split_once('\n').ok_or("no output")?;
    let times: Vec<u64> = head.split(' ').filter_map(|n| n.parse().ok()).collect();
    match times.as_slice() {
        [types, report] => Ok(Some((Duration::from_nanos(*types), Duration::from_nanos(*report), text.to_string()))),
        _ => Err("no times".to_string()),
    }
}

/// What the process of its own does: the body on standard input; nanoseconds of types and report, then the text.
pub fn as_child() -> Result<(), String> {
    let mut bytes = Vec::new();
    std::io::stdin().read_to_end(&mut bytes).map_err(|e| e.to_string())?;
    let declined = |r| format!("declined: {r:?}");
    let types = original::timed_types(&bytes, Clock::Thread).map_err(declined)?;
    let mut text = Ok(String::new());
    let report = timed(Clock::Thread, || text = original::report(&bytes));
    let text = text.map_err(declined)?;
    print!("{} {}\n{text}", types.as_nanos(), report.as_nanos());
    Ok(())
}
