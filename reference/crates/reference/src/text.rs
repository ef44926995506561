//! The text of a body on one line, as the programs of the gate read it.
//!
//! `/` is a line feed, `\hh` the byte with this hexadecimal number, `{N:T}` the text T N times, where `#` in T is the number of
//! the turn counted from 0, `{N+S:T}` the same counted from S; T has no braces, N and S are at most 65,535. Any other byte is itself.

/// The bytes of a text; none where it is not of this form.
pub fn expand(text: &str) -> Option<Vec<u8>> {
    let mut out = Vec::new();
    let mut rest = text;
    while let Some(open) = rest.find('{') {
        plain(&rest[..open], 0, &mut out)?;
        let close = open + rest[open..].find('}')?;
        let (head, turn) = rest[open + 1..close].split_once(':')?;
        let (count, first) = head.split_once('+').unwrap_or((head, "0"));
        let (count, first): (u16, u16) = (count.parse().ok()?, first.parse().ok()?);
        for k in 0..u32::from(count) {
            plain(turn, u32::from(first) + k, &mut out)?;
        }
        rest = &rest[close + 1..];
    }
    plain(rest, 0, &mut out)?;
    Some(out)
}

/// A text without a repetition, in the turn with number k.
fn plain(text: &str, k: u32, out: &mut Vec<u8>) -> Option<()> {
    let mut bytes = text.bytes();
    while let Some(b) = bytes.next() {
        match b {
            b'/' => out.push(b'\n'),
            b'#' => out.extend(k.to_string().bytes()),
            b'\\' => {
                let pair = [bytes.next()?, bytes.next()?];
                out.push(u8::from_str_radix(std::str::from_utf8(&pair).ok()?, 16).ok()?);
            }
            b'}' => return None,
            _ => out.push(b),
        }
    }
    Some(())
}

/// A text of these bytes, without repetitions.
pub fn flat(bytes: &[u8]) -> String {
    let mut out = String::new();
    for b in bytes {
        match b {
            b'\n' => out.push('/'),
            b'/' | b'\\' | b'{' | b'}' | b'#' => out.push_str(&format!("\\{b:02x}")),
            0x20..=0x7e => out.push(*b as char),
            _ => out.push_str(&format!("\\{b:02x}")),
        }
    }
    out
}

/// A text of these bytes in which a line that stands several times in a row is a repetition.
pub fn packed(bytes: &[u8]) -> String {
    let lines: Vec<String> = bytes.split_inclusive(|byte| *byte == b'\n').map(flat).collect();
    let run = |same: &[String]| match same {
        [line] => line.clone(),
        _ => format!("{{{}:{}}}", same.len(), same[0]),
    };
    lines.chunk_by(|one, other| one == other).map(run).collect()
}

#[cfg(test)]
mod tests {
    use super::*;

    #[test]
    fn a_packed_text_is_that_of_its_bytes() {
        assert_eq!(packed(b"a\nb\nb\nb\na\n"), "a/{3:b/}a/");
        for bytes in [&b""[..], b"a", b"a\na", b"a\na\n", b"#{2:x}\n#{2:x}\n\n\n\\\n", b"\n\n\n"] {
            assert_eq!(expand(&packed(bytes)).as_deref(), Some(bytes));
        }
    }
}
