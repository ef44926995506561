//! Variables bound in rings, and variables inside their own binding.

use crate::builder::Builder;
use crate::draft::{I32, Node};

impl Builder {
    pub fn rings_body(self) -> Vec<u8> {
        self.themed(Self::ring_theme, 2)
    }

    /// Variables bound in a chain, closed to a ring or nearly so.
    fn ring_theme(&mut self, made: &mut Vec<usize>) {
        let lets = match self.random.below(3) {
            0 => self.number_lets(made),
            _ => {
                let count = self.random.pick(&[2, 2, 2, 2, 3, 3, 4, 4, 6, 9, 24]);
                self.open_lets(made, count)
            }
        };
        match self.random.below(4) {
            0 => self.diamond(made, &lets),
            _ => self.chain(made, &lets),
        }
        if self.random.chance(20) {
            let path = self.local(lets[0]);
            made.push(self.un('n', path));
        }
        let (a, b) = match self.random.chance(75) {
            true => (lets[lets.len() - 1], lets[0]),
            false => (self.random.pick(&lets), self.random.pick(&lets)),
        };
        let closing = self.equate(a, b);
        made.push(closing);
        if self.random.chance(70) {
            self.ring_end(made, &lets);
        }
    }

    /// Number literals kept in locals, all of one kind most often.
    fn number_lets(&mut self, made: &mut Vec<usize>) -> Vec<usize> {
        let mut lets = Vec::new();
        for _ in 0..self.random.range(2, 5) {
            let init = match self.random.chance(95) {
                true => self.int(),
                false => self.float(),
            };
            lets.push(self.let_of(init));
        }
        made.extend(&lets);
        lets
    }

    fn chain(&mut self, made: &mut Vec<usize>, lets: &[usize]) {
        for pair in lets.windows(2) {
            let link = match self.random.chance(90) {
                true => self.equate(pair[0], pair[1]),
                false => self.equate(pair[1], pair[0]),
            };
            made.push(link);
        }
    }

    /// All variables bound to the last, then some set against one another.
    fn diamond(&mut self, made: &mut Vec<usize>, lets: &[usize]) {
        let end = lets[lets.len() - 1];
        for &start in &lets[..lets.len() - 1] {
            let link = self.equate(start, end);
            made.push(link);
        }
        let (a, b) = (self.random.pick(lets), self.random.pick(lets));
        let cross = self.equate(a, b);
        made.push(cross);
    }

    /// What comes after a ring: a type for one of its variables.
    fn ring_end(&mut self, made: &mut Vec<usize>, lets: &[usize]) {
        let some = self.random.pick(lets);
        let left = self.local(some);
        let right = match self.random.chance(70) {
            true => self.declared(I32),
            false => self.any_value(),
        };
        made.push(self.assign(left, right));
    }

    pub fn inside_body(self) -> Vec<u8> {
        self.themed(Self::inside_theme, 2)
    }

    /// A variable against a type that holds it, or nearly does.
    fn inside_theme(&mut self, made: &mut Vec<usize>) {
        let count = self.random.range(2, 5);
        let lets = self.open_lets(made, count);
        let mut holder = lets[0];
        for &next in &lets[1..self.random.range(1, count)] {
            let inside = self.local(holder);
            let wrapped = match self.random.chance(60) {
                true => self.wrap(inside),
                false => inside,
            };
            let left = self.local(next);
            made.push(self.set(left, wrapped));
            holder = next;
        }
        let closes = self.random.chance(60);
        let end = if closes { lets[0] } else { lets[count - 1] };
        let inside = self.local(holder);
        let wrapped = self.wrap(inside);
        let other = self.local(end);
        made.push(match self.random.chance(75) {
            true => self.set(other, wrapped),
            false => self.set(wrapped, other),
        });
        if self.random.chance(40) {
            let left = self.local(lets[0]);
            let right = self.any_value();
            made.push(self.assign(left, right));
        }
    }

    /// An array, reference or lambda that holds the expression's type.
    fn wrap(&mut self, inside: usize) -> usize {
        match self.random.below(6) {
            0 | 1 => self.list(vec![inside]),
            2 => self.un('r', inside),
            3 => self.emit(Node::Lambda(None, inside, vec![])),
            4 => {
                let param = self.emit(Node::Param(None));
                let left = self.local(param);
                let body = self.assign(left, inside);
                self.emit(Node::Lambda(None, body, vec![param]))
            }
            _ => {
                let inner = self.list(vec![inside]);
                self.un('r', inner)
            }
        }
    }
}
