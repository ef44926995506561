//! A smaller body that still differs: rows, items and absent parts are left out one at a time, and the rest is numbered anew.

/// Which rows a field numbers.
#[derive(Clone, Copy, PartialEq, Eq, Debug)]
enum Series {
    Type,
    Def,
    Inst,
    Node,
}

/// The number of the first `type` row.
const FIRST_TYPE: usize = 14;

/// What the fields of a line are: `t` a type, `n` a node, `d` a definition, `i` an instance, `r` a RES, `x` another; upper case behind
/// a name and a colon. The last one stands for all that follow where a `*` is behind it.
fn form(key: &str, word: &str) -> &'static str {
    match (key, word) {
        ("type", "array") => "xt",
        ("type", "fun") => "xxtt*",
        ("type", "inst") => "xi",
        ("type", "fn") => "xd",
        ("def", _) => "tt*",
        ("inst", _) => "T*",
        ("bind", _) => "tD*",
        ("fn", _) => "tnn*",
        ("node", "bin") => "xxnn",
        ("node", "un") => "xxn",
        ("node", "field") => "xnx",
        ("node", "list") => "xn*",
        ("node", "index" | "assign" | "opassign") => "xnn",
        ("node", "if") => "xnnn",
        ("node", "loop" | "return") => "xn",
        ("node", "call" | "block") => "xnn*",
        ("node", "mcall") => "xnxn*",
        ("node", "let") => "xtn",
        ("node", "param") => "xt",
        ("node", "lambda") => "xtnn*",
        ("node", "path") => "xrxR*",
        _ => "x*",
    }
}

#[derive(Clone, PartialEq, Eq, Debug)]
struct Line {
    key: String,
    fields: Vec<String>,
}

impl Line {
    fn parse(line: &str) -> Line {
        let (key, value) = line.split_once('=').unwrap_or((line, ""));
        Line { key: key.to_string(), fields: value.split(',').map(str::to_string).collect() }
    }

    fn form(&self) -> &'static str {
        form(&self.key, &self.fields[0])
    }

    /// The letter of a field.
    fn letter(&self, field: usize) -> u8 {
        let letters = self.form().trim_end_matches('*').as_bytes();
        letters.get(field).or(letters.last()).copied().unwrap_or(b'x')
    }

    /// The fields that are items of a list.
    fn items(&self) -> std::ops::Range<usize> {
        match self.form().strip_suffix('*') {
            Some(letters) if letters != "x" => letters.len() - 1..self.fields.len(),
            _ => 0..0,
        }
    }

    /// The series that the line has a row in.
    fn series(&self) -> Option<Series> {
        match self.key.as_str() {
            "type" => Some(Series::Type),
            "def" => Some(Series::Def),
            "inst" => Some(Series::Inst),
            "node" => Some(Series::Node),
            _ => None,
        }
    }

    /// The line where the row of a series is left out; none where it is named here.
    fn without(&self, series: Series, row: usize) -> Option<Line> {
        let fields = (0..self.fields.len()).map(|i| {
            let field = &self.fields[i];
            let letter = self.letter(i);
            let (name, value) = match letter.is_ascii_uppercase() {
                true => field.split_once(':').map_or(("", field.as_str()), |(n, v)| (&field[..n.len() + 1], v)),
                false => ("", field.as_str()),
            };
            let (tag, of) = match letter.to_ascii_lowercase() {
                b't' => ("", Some(Series::Type)),
                b'n' => ("", Some(Series::Node)),
                b'd' => ("", Some(Series::Def)),
                b'i' => ("", Some(Series::Inst)),
                b'r' => match value.as_bytes().first() {
                    Some(b'l') => ("l", Some(Series::Node)),
                    Some(b'f') => ("f", Some(Series::Def)),
                    Some(b'c') => ("c", Some(Series::Def)),
                    Some(b'i') => ("i", Some(Series::Inst)),
                    _ => ("", None),
                },
                _ => ("", None),
            };
            match value[tag.len()..].parse::<usize>() {
                Ok(number) if of == Some(series) && number == row => None,
                Ok(number) if of == Some(series) && number > row => Some(format!("{name}{tag}{}", number - 1)),
                _ => Some(field.clone()),
            }
        });
        Some(Line { key: self.key.clone(), fields: fields.collect::<Option<Vec<String>>>()? })
    }

    fn with(&self, fields: Vec<String>) -> Line {
        Line { key: self.key.clone(), fields }
    }
}

fn text(lines: &[Line]) -> String {
    lines.iter().map(|line| format!("{}={}\n", line.key, line.fields.join(","))).collect()
}

/// The body without the row of a line, the rest numbered anew; none where another line names the row.
fn without_row(lines: &[Line], at: usize) -> Option<Vec<Line>> {
    let mut rest = lines.to_vec();
    let line = rest.remove(at);
    let Some(series) = line.series() else { return Some(rest) };
    let before = lines[..at].iter().filter(|l| l.key == line.key).count();
    let row = before + if series == Series::Type { FIRST_TYPE } else { 0 };
    rest.iter().map(|line| line.without(series, row)).collect()
}

/// The body that ends at an earlier node, which becomes BODY.
fn ended_at(lines: &[Line], at: usize) -> Option<Vec<Line>> {
    let last = lines.last()?;
    if lines[at].key != "node" || last.key != "fn" || last.fields.len() < 2 {
        return None;
    }
    let node = lines[..at].iter().filter(|l| l.key == "node").count();
    let mut fields = last.fields.clone();
    fields[1] = node.to_string();
    Some([&lines[..=at], &[last.with(fields)]].concat())
}

/// Each body that is one step smaller, the largest steps first.
fn smaller(lines: &[Line]) -> Vec<Vec<Line>> {
    let mut all = Vec::new();
    all.extend((0..lines.len().saturating_sub(2)).filter_map(|at| ended_at(lines, at)));
    all.extend((0..lines.len()).rev().filter_map(|at| without_row(lines, at)));
    for (at, line) in lines.iter().enumerate() {
        let mut put = |fields: Vec<String>| {
            let mut changed = lines.to_vec();
            changed[at] = line.with(fields);
            all.push(changed);
        };
        for item in line.items().rev() {
            let mut fields = line.fields.clone();
            fields.remove(item);
            // An `inst` without a field has one empty part.
            put(if fields.is_empty() { vec![String::new()] } else { fields });
        }
        for field in 0..line.fields.len() {
            if line.fields[field] != "-" && !line.items().contains(&field) && b"tn".contains(&line.letter(field)) {
                let mut fields = line.fields.clone();
                fields[field] = "-".to_string();
                put(fields);
            }
        }
        if line.key == "node" && line.fields.len() > 1 {
            put(vec!["bool".to_string()]);
        }
    }
    all
}

/// A smaller body for which `differs` holds, found within so many tries.
pub fn shrink(body: &str, mut tries: usize, mut differs: impl FnMut(&str) -> bool) -> String {
    let mut lines: Vec<Line> = body.lines().map(Line::parse).collect();
    let mut best = body.to_string();
    'smaller: loop {
        for candidate in smaller(&lines) {
            let shorter = text(&candidate);
            if shorter.len() >= best.len() {
                continue;
            }
            if tries == 0 {
                return best;
            }
            tries -= 1;
            if differs(&shorter) {
                (lines, best) = (candidate, shorter);
                continue 'smaller;
            }
        }
        return best;
    }
}

#[cfg(test)]
mod tests {
    use super::*;

    const BODY: &str = "type=array,8\ntype=array,14\ndef=14,15\ndef=8\ninst=1:15\nbind=15,2:1\nnode=param,8\nnode=int\n\
                        node=path,f1,1,3:f1\nnode=int\nnode=call,2,3\nnode=block,4,1\nfn=8,5,0\n";

    #[test]
    fn a_row_is_left_out_and_the_rest_numbered_anew() {
        let lines: Vec<Line> = BODY.lines().map(Line::parse).collect();
        assert_eq!(text(&lines), BODY);
        // The type 14 and the definition 1 are named; the definition 0 is not.
        assert_eq!(without_row(&lines, 0), None);
        assert_eq!(without_row(&lines, 3), None);
        let rest = text(&without_row(&lines, 2).unwrap());
        assert_eq!(
            rest,
            BODY.replace("def=14,15\n", "").replace("2:1", "2:0").replace("path,f1,1,3:f1", "path,f0,1,3:f0")
        );
        assert!(body::read(rest.as_bytes()).is_ok());
    }

    #[test]
    fn what_differs_is_kept() {
        // A body differs if it is accepted and has a call.
        let differs = |text: &str| body::read(text.as_bytes()).is_ok() && text.contains("call");
        assert!(differs(BODY));
        let least = shrink(BODY, 10_000, differs);
        assert_eq!(least, "node=bool\nnode=call,0\nfn=8,1\n");
        assert_eq!(shrink(BODY, 0, differs), BODY);
    }
}
