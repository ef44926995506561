//! The recorded samples, read back from the file that holds them; and the two files of crates/write_run, which writes their bodies back.
use crate::text;

/// A recorded sample.
pub struct Sample<'a> {
    pub name: &'a str,
    /// Its body.
    pub bytes: Vec<u8>,
    /// Its second line: what `report` has to leave.
    pub left: &'a str,
}

/// The samples of a file, or which of them has no body.
pub fn parse(file: &str) -> Result<Vec<Sample<'_>>, String> {
    let mut samples = Vec::new();
    let mut lines = file.lines().filter(|l| !l.is_empty() && !l.starts_with('#'));
    while let Some(line) = lines.next() {
        let (name, text) = line.split_once(' ').unwrap_or((line, ""));
        let bytes = text::expand(text).ok_or_else(|| format!("{name}: not a text"))?;
        samples.push(Sample { name, bytes, left: lines.next().unwrap_or("") });
    }
    Ok(samples)
}

/// The same samples, and the counts that `write_run` prints of them if every body that the reader accepts comes back.
pub fn write_run_files(stdin: String) -> Result<Vec<(&'static str, String)>, String> {
    let samples = parse(&stdin)?;
    let refused = samples.iter().filter(|s| body::read(&s.bytes).is_err()).count();
    let accepted = samples.len() - refused;
    let stdout = format!(
        "samples={}\n\
         refused by the reader={refused}\n\
         written back={accepted}\n\
         written back with room to spare={accepted}\n\
         full and cleared, one byte short={accepted}\n\
         full, no byte of room={accepted}\n",
        samples.len()
    );
    Ok(vec![("stdin", stdin), ("stdout", stdout)])
}
