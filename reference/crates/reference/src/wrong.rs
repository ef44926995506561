//! Wrong versions of the rules' program, built one by one and replayed on the recorded samples, which have to tell them.
use std::path::Path;
use std::process::{Command, Stdio};

/// Seconds after which a version counts as told: it does not end.
const SECONDS: &str = "20";

struct Version<'a> {
    name: &'a str,
    file: &'a str,
    /// Why it answers as the rules do, if it does.
    alike: Option<&'a str>,
    old: String,
    new: String,
}

fn parse(part: &str) -> Version<'_> {
    let mut lines = part.lines();
    let (name, file) = (lines.next().unwrap_or(""), lines.next().unwrap_or(""));
    let rest: Vec<&str> = lines.collect();
    let with = |sign: char| -> Vec<&str> { rest.iter().filter_map(|l| l.strip_prefix(sign)).collect() };
    let alike = with('=').first().map(|l| l.trim());
    Version { name, file, alike, old: with('-').join("\n"), new: with('+').join("\n") }
}

fn command(program: &str, args: &[&str], at: &Path) -> Result<String, String> {
    let mut command = Command::new(program);
    command.args(args).current_dir(at).env("RUSTFLAGS", "-Awarnings").stderr(Stdio::inherit());
    let out = command.output();
    let out = out.map_err(|e| format!("{program}: {e}"))?;
    Ok(String::from_utf8_lossy(&out.stdout).into_owned())
}

/// Builds each version of the list in a copy of this workspace, and replays the samples; whether all come out as the list says.
pub fn run(list: &str, workspace: &str, sample: &str) -> Result<bool, String> {
    let text = std::fs::read_to_string(list).map_err(|e| format!("{list}: {e}"))?;
    let sample = std::fs::canonicalize(sample).map_err(|e| format!("{sample}: {e}"))?;
    let workspace = std::fs::canonicalize(workspace).map_err(|e| format!("{workspace}: {e}"))?;
    let copy = workspace.join("target/wrong");
    std::fs::create_dir_all(&copy).map_err(|e| e.to_string())?;
    let here = copy.to_string_lossy().into_owned();
    for part in ["Cargo.toml", "Cargo.lock", "crates", "stand-ins", "source"] {
        command("cp", &["-r", part, &here], &workspace)?;
    }
    // crates/compare names a crate beside this workspace, which cargo looks for and does not build.
    let beside = workspace.join("target/firmware/rust");
    std::fs::create_dir_all(&beside).map_err(|e| e.to_string())?;
    for part in ["Cargo.toml", "build.rs", "src"] {
        command("cp", &["-r", part, &beside.to_string_lossy()], &workspace.join("../firmware/rust"))?;
    }
    let (mut good, mut bad) = (0, 0);
    for version in text.split("\n== ").skip(1).map(parse) {
        let told = replay(&version, &copy, &sample.to_string_lossy())?;
        let (good_here, note) = match (told.is_empty(), version.alike) {
            (true, Some(why)) => (true, format!("answers alike: {why}")),
            (true, None) => (false, "NOT TOLD".to_string()),
            (false, None) => (true, told),
            (false, Some(_)) => (false, format!("{told}, and should answer alike")),
        };
        println!("{}: {note}", version.name);
        if good_here { good += 1 } else { bad += 1 }
    }
    println!("{good} as the list says, {bad} not");
    Ok(bad == 0)
}

/// How the samples tell a version; empty where they do not.
fn replay(version: &Version, copy: &Path, sample: &str) -> Result<String, String> {
    let path = copy.join("crates/rules/src").join(version.file);
    let text = std::fs::read_to_string(&path).map_err(|e| format!("{}: {e}", version.file))?;
    if !text.contains(&version.old) {
        return Err(format!("{}: the old text is not there", version.name));
    }
    let binary = copy.join("target/release/reference");
    let _ = std::fs::remove_file(&binary);
    std::fs::write(&path, text.replacen(&version.old, &version.new, 1)).map_err(|e| e.to_string())?;
    command("cargo", &["build", "--release", "--offline", "--locked", "--quiet"], copy)?;
    std::fs::write(&path, text).map_err(|e| e.to_string())?;
    if !binary.exists() {
        return Err(format!("{}: it does not build", version.name));
    }
    let out = command("timeout", &[SECONDS, &binary.to_string_lossy(), "replay", sample], copy)?;
    let last = out.lines().last().unwrap_or("");
    Ok(match last.strip_suffix(" different").and_then(|l| l.rsplit(' ').next()) {
        Some("0") => String::new(),
        Some(count) => format!("{count} bodies differ"),
        None => "it does not end, or panics".to_string(),
    })
}
