//! The lines of a conflict.

/// What a line has that [`quarrel`](crate::Checker::quarrel) or [`shortest`](crate::Checker::shortest) writes for an equation.
#[derive(Clone, Copy, Debug, PartialEq, Eq)]
pub enum Lines {
    /// `equation=N`: the number.
    Numbers,
    /// `equation=N,NODE,EXPECTED,GOT`: the number and the place.
    Places,
}

impl Lines {
    /// The number that the library takes for them.
    pub(crate) const fn number(self) -> usize {
        match self {
            Self::Numbers => 0,
            Self::Places => 1,
        }
    }
}

/// An equation of a conflict.
#[derive(Clone, Copy, Debug, PartialEq, Eq)]
pub struct Conflicting {
    /// Its number, from 0 in the order raised.
    pub number: u16,
    /// Where it was raised; none in lines that have the number alone.
    pub place: Option<Place>,
}

/// Where an equation was raised.
#[derive(Clone, Copy, Debug, PartialEq, Eq)]
pub struct Place {
    /// The node whose rule raised it.
    pub node: u16,
    /// The type that was expected.
    pub expected: u16,
    /// The type that was got.
    pub got: u16,
}

/// What the last line of a text of `shortest` begins with.
const BELOW: &[u8] = b"below=";

/// The equations of a text, a line each, up to the line `below=` if there is one. Panics where a line before it is of another form.
pub(crate) fn equations(text: &[u8]) -> impl Iterator<Item = Conflicting> + Clone + '_ {
    text.split_inclusive(|&b| b == b'\n')
        .take_while(|l| !l.starts_with(BELOW))
        .map(|l| equation(l).unwrap_or_else(|| panic!("no line of an equation: {l:?}")))
}

/// The number of the line `below=`, with which a text of `shortest` ends. Panics where it ends otherwise.
pub(crate) fn below(text: &[u8]) -> usize {
    let line = text.split_inclusive(|&b| b == b'\n').next_back().unwrap_or(text);
    let number = line.strip_prefix(BELOW).and_then(|n| n.strip_suffix(b"\n"));
    let number = number.and_then(|n| std::str::from_utf8(n).ok()?.parse().ok());
    number.unwrap_or_else(|| panic!("no line below=: {line:?}"))
}

fn equation(line: &[u8]) -> Option<Conflicting> {
    let numbers = std::str::from_utf8(line).ok()?.strip_prefix("equation=")?.strip_suffix('\n')?;
    let numbers = numbers.split(',').map(|n| n.parse().ok()).collect::<Option<Vec<u16>>>()?;
    match *numbers {
        [number] => Some(Conflicting { number, place: None }),
        [number, node, expected, got] => Some(Conflicting { number, place: Some(Place { node, expected, got }) }),
        _ => None,
    }
}
