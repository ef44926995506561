//! The reference's reader in a second process: what it makes of a body that may be damaged does not end this one.
//!
//! A question is the length of a body in four bytes, the least first, and the body. An answer is ten bytes: document 01's number or 0,
//! whether there is a line, and the line in eight bytes, the least first.
use body::Refusal;
use std::io::{ErrorKind, Read as _, Write as _};
use std::os::fd::OwnedFd;
use std::os::unix::net::UnixStream;
use std::process::{Child, Command, Stdio};
use std::time::Duration;

/// The subcommand of the second process.
pub const COMMAND: &str = "reader";
/// How long the reader may take for a body.
const PATIENCE: Duration = Duration::from_secs(20);

/// What the reader makes of a body.
#[derive(Clone, Copy, PartialEq, Eq, Debug)]
pub enum Reading {
    Accepted,
    Declined(Refusal),
    /// It gave no answer.
    Failed,
}

fn answer_bytes(refusal: Option<Refusal>) -> [u8; 10] {
    let (answer, line) = refusal.map_or((0, None), |r| (r.answer, r.line));
    let mut bytes = [0; 10];
    bytes[0] = answer;
    bytes[1] = u8::from(line.is_some());
    bytes[2..].copy_from_slice(&(line.unwrap_or(0) as u64).to_le_bytes());
    bytes
}

fn answer_of(bytes: [u8; 10]) -> Reading {
    let [answer, has_line, line @ ..] = bytes;
    match answer {
        0 => Reading::Accepted,
        _ => Reading::Declined(Refusal { answer, line: (has_line == 1).then_some(u64::from_le_bytes(line) as usize) }),
    }
}

/// The second process: answers each body on standard input until that ends.
pub fn serve(read: fn(&[u8]) -> Option<Refusal>) -> std::io::Result<()> {
    let (mut input, mut output) = (std::io::stdin().lock(), std::io::stdout().lock());
    let mut bytes = Vec::new();
    loop {
        let mut length = [0; 4];
        match input.read_exact(&mut length) {
            Err(e) if e.kind() == ErrorKind::UnexpectedEof => return Ok(()),
            other => other?,
        }
        bytes.resize(u32::from_le_bytes(length) as usize, 0);
        input.read_exact(&mut bytes)?;
        output.write_all(&answer_bytes(read(&bytes)))?;
        output.flush()?;
    }
}

/// A second process, started when it is needed.
pub struct Reader {
    program: std::path::PathBuf,
    args: Vec<String>,
    patience: Duration,
    running: Option<(Child, UnixStream)>,
}

impl Reader {
    /// This program with the subcommand.
    pub fn new() -> std::io::Result<Reader> {
        Ok(Reader::of(std::env::current_exe()?, vec![COMMAND.to_string()], PATIENCE))
    }

    fn of(program: std::path::PathBuf, args: Vec<String>, patience: Duration) -> Reader {
        Reader { program, args, patience, running: None }
    }

    /// What the reader makes of a body. After a failure the process is ended, and the next body has a new one.
    pub fn read(&mut self, bytes: &[u8]) -> Reading {
        match self.ask(bytes) {
            Ok(read) => read,
            Err(_) => {
                self.end();
                Reading::Failed
            }
        }
    }

    fn ask(&mut self, bytes: &[u8]) -> std::io::Result<Reading> {
        let stream = match &mut self.running {
            Some((_, stream)) => stream,
            none => &mut none.insert(start(&self.program, &self.args, self.patience)?).1,
        };
        stream.write_all(&(bytes.len() as u32).to_le_bytes())?;
        stream.write_all(bytes)?;
        let mut answer = [0; 10];
        stream.read_exact(&mut answer)?;
        Ok(answer_of(answer))
    }

    fn end(&mut self) {
        if let Some((mut child, stream)) = self.running.take() {
            drop(stream);
            let _ = child.kill();
            let _ = child.wait();
        }
    }
}

impl Drop for Reader {
    fn drop(&mut self) {
        self.end();
    }
}

fn start(program: &std::path::Path, args: &[String], patience: Duration) -> std::io::Result<(Child, UnixStream)> {
    let (ours, theirs) = UnixStream::pair()?;
    ours.set_read_timeout(Some(patience))?;
    ours.set_write_timeout(Some(patience))?;
    let (input, output) = (OwnedFd::from(theirs.try_clone()?), OwnedFd::from(theirs));
    let child = Command::new(program)
        .args(args)
        .stdin(Stdio::from(input))
        .stdout(Stdio::from(output))
        .stderr(Stdio::null())
        .spawn()?;
    Ok((child, ours))
}

#[cfg(test)]
mod tests {
    use super::*;

    fn script(text: &str) -> Reader {
        Reader::of("/bin/sh".into(), vec!["-c".to_string(), text.to_string()], Duration::from_millis(500))
    }

    #[test]
    fn an_answer_is_the_same_behind_its_bytes() {
        for line in [None, Some(1), Some(70_000)] {
            let refusal = Refusal { answer: 3, line };
            assert_eq!(answer_of(answer_bytes(Some(refusal))), Reading::Declined(refusal));
        }
        assert_eq!(answer_of(answer_bytes(None)), Reading::Accepted);
    }

    #[test]
    fn an_answer_is_read_from_the_process() {
        let mut reader = script(r"head -c 5 >&2; printf '\005\001\007\000\000\000\000\000\000\000'");
        assert_eq!(reader.read(b"x"), Reading::Declined(Refusal { answer: 5, line: Some(7) }));
    }

    #[test]
    fn a_process_that_ends_or_hangs_gives_nothing() {
        assert_eq!(script("exit 1").read(b"x"), Reading::Failed);
        assert_eq!(script("kill -SEGV $$").read(b"x"), Reading::Failed);
        assert_eq!(script("printf 123; exit 0").read(b"x"), Reading::Failed);
        assert_eq!(script("exec sleep 60").read(b"x"), Reading::Failed);
    }
}
