//! Damage to a body: bytes, numbers, fields and lines changed in one place or two.

use crate::random::Random;

/// Bytes that fit no form, or the wrong place of one.
const BYTES: &[u8] = b"\0\r\n=,:-+0123456789 \t\x80\xFFlfcieoxA";

/// Fields that are no number, or one at the edge.
const FIELDS: [&str; 16] =
    ["", "-", "0", "00", "01", "+1", "-1", " 1", "1 ", "x", "1:1", "65535", "65536", "99999999999", "1.0", "--"];

const KEYS: [&str; 10] = ["type", "def", "inst", "bind", "node", "fn", "Node", "nod", "nodes", ""];

const KINDS: [&str; 12] =
    ["bool", "int", "str", "list", "block", "let", "param", "lambda", "path", "array", "fun", "if"];

/// Damages the body in one place, or in two.
pub fn damage(random: &mut Random, mut body: Vec<u8>) -> Vec<u8> {
    let times = if random.chance(30) { 2 } else { 1 };
    for _ in 0..times {
        body = match random.below(20) {
            0..3 => damage_byte(random, body),
            3..6 => damage_lines(random, &body),
            6..10 => damage_field(random, &body),
            _ => damage_number(random, &body),
        };
    }
    body
}

fn damage_byte(random: &mut Random, mut body: Vec<u8>) -> Vec<u8> {
    if body.is_empty() {
        return body;
    }
    let place = random.below(body.len());
    let byte = random.pick(BYTES);
    match random.below(4) {
        0 => body[place] = byte,
        1 => {
            body.remove(place);
        }
        2 if random.chance(15) => body.truncate(place),
        _ => body.insert(place, byte),
    }
    body
}

/// The lines, without their line feeds.
fn lines_of(body: &[u8]) -> Vec<Vec<u8>> {
    let ended = body.strip_suffix(b"\n").unwrap_or(body);
    ended.split(|b| *b == b'\n').map(<[u8]>::to_vec).collect()
}

fn whole(lines: &[Vec<u8>]) -> Vec<u8> {
    let mut body = lines.join(&b'\n');
    body.push(b'\n');
    body
}

fn damage_lines(random: &mut Random, body: &[u8]) -> Vec<u8> {
    let mut lines = lines_of(body);
    let place = some_line(random, &lines);
    let other = random.below(lines.len());
    match random.below(11) {
        0 | 1 => {
            lines.remove(place);
        }
        2 => lines.insert(place, lines[place].clone()),
        3 | 4 => lines.swap(place, other),
        5 => lines[place] = change_key(random, &lines[place]),
        6 => lines.insert(place, Vec::new()),
        7 => lines.push(lines[place].clone()),
        8 => lines.push(Vec::new()),
        9 => {
            let mut open = whole(&lines);
            open.pop();
            return open;
        }
        _ => lines.truncate(place),
    }
    if lines.is_empty() {
        return Vec::new();
    }
    whole(&lines)
}

fn change_key(random: &mut Random, line: &[u8]) -> Vec<u8> {
    let start = line.iter().position(|b| *b == b'=').unwrap_or(line.len());
    let mut changed = random.pick(&KEYS).as_bytes().to_vec();
    changed.extend(&line[start..]);
    changed
}

/// A line with many of its kind is picked no more often than a rare one.
fn some_line(random: &mut Random, lines: &[Vec<u8>]) -> usize {
    let key = random.pick(&["type", "def", "inst", "bind", "node", "node", "fn"]);
    let fits = |place: &usize| lines[*place].starts_with(key.as_bytes());
    let found: Vec<usize> = (0..lines.len()).filter(fits).collect();
    match random.maybe(&found) {
        Some(place) => place,
        None => random.below(lines.len()),
    }
}

/// Key and fields of a line.
fn fields_of(line: &[u8]) -> (Vec<u8>, Vec<Vec<u8>>) {
    let start = line.iter().position(|b| *b == b'=').map_or(0, |p| p + 1);
    let fields = line[start..].split(|b| *b == b',');
    (line[..start].to_vec(), fields.map(<[u8]>::to_vec).collect())
}

fn damage_field(random: &mut Random, body: &[u8]) -> Vec<u8> {
    let mut lines = lines_of(body);
    let place = some_line(random, &lines);
    let (mut line, mut fields) = fields_of(&lines[place]);
    let field = random.below(fields.len());
    let other = random.below(fields.len());
    match random.below(9) {
        0 | 1 => {
            fields.remove(field);
        }
        2 | 3 => fields.insert(field, fields[field].clone()),
        4 => fields.swap(field, other),
        5 => fields.push(b"0".to_vec()),
        6 => fields[0] = random.pick(&KINDS).as_bytes().to_vec(),
        _ => fields[field] = random.pick(&FIELDS).as_bytes().to_vec(),
    }
    line.extend(fields.join(&b','));
    lines[place] = line;
    whole(&lines)
}

/// Another number in the place of one, often at the edge of its table.
fn damage_number(random: &mut Random, body: &[u8]) -> Vec<u8> {
    let mut lines = lines_of(body);
    let place = some_line(random, &lines);
    let edges = edges_at(&lines, place);
    let (mut line, mut fields) = fields_of(&lines[place]);
    let found: Vec<usize> = (0..fields.len()).filter(|f| fields[*f].last().is_some_and(u8::is_ascii_digit)).collect();
    if let Some(field) = random.maybe(&found) {
        fields[field] = change_number(random, &fields[field], &edges);
    }
    line.extend(fields.join(&b','));
    lines[place] = line;
    whole(&lines)
}

/// Numbers at the end of each table, and one past it.
fn edges_at(lines: &[Vec<u8>], place: usize) -> Vec<usize> {
    let count = |key: &str| {
        let fits = |line: &&Vec<u8>| line.starts_with(key.as_bytes());
        lines.iter().filter(fits).count()
    };
    let before = |key: &str| {
        let fits = |line: &&Vec<u8>| line.starts_with(key.as_bytes());
        lines[..place].iter().filter(fits).count()
    };
    let own = before("node=");
    let mut edges = vec![0, 11, 12, 13, 13, 13, own, own + 1, before("type=") + 14];
    for key in ["def=", "inst=", "node="] {
        edges.extend([count(key), count(key).saturating_sub(1)]);
    }
    edges.extend([count("type=") + 13, count("type=") + 14]);
    edges.extend((0..own).rev().take(6));
    edges
}

/// The digits at the end of a field, or before its colon, made another number.
fn change_number(random: &mut Random, field: &[u8], edges: &[usize]) -> Vec<u8> {
    let colon = field.iter().position(|b| *b == b':');
    let (end, rest) = match colon {
        Some(place) if random.chance(25) => field.split_at(place),
        _ => (field, &[][..]),
    };
    let digits = end.iter().rev().take_while(|b| b.is_ascii_digit()).count();
    let mut changed = end[..end.len() - digits].to_vec();
    if let Some(letter) = changed.last_mut()
        && letter.is_ascii_lowercase()
        && random.chance(30)
    {
        *letter = random.pick(b"lfcieox");
    }
    let number = match random.below(10) {
        0 => random.pick(&FIELDS).to_string(),
        1 => format!("0{}", random.pick(edges)),
        _ => random.pick(edges).to_string(),
    };
    changed.extend(number.as_bytes());
    changed.extend(rest);
    changed
}
