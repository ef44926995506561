//! Negated variables and what becomes of their marks.

use crate::builder::Builder;

impl Builder {
    pub fn marks_body(self) -> Vec<u8> {
        self.themed(Self::mark_theme, 3)
    }

    /// A negated variable: its mark is kept, passed on, or refuses a type.
    fn mark_theme(&mut self, made: &mut Vec<usize>) {
        let marked = match self.random.below(5) {
            0 | 1 => self.open_let(),
            2 => {
                let init = self.float();
                self.let_of(init)
            }
            _ => {
                let init = self.int();
                self.let_of(init)
            }
        };
        made.push(marked);
        if self.random.chance(20) {
            self.mark_with(made, marked);
        }
        let path = self.local(marked);
        made.push(self.un('n', path));
        match self.random.below(6) {
            0 | 1 => self.mark_passed(made, marked),
            2 => {
                let left = self.any_value();
                let right = self.local(marked);
                made.push(self.set(left, right));
            }
            _ => self.mark_with(made, marked),
        }
    }

    /// The local against some value, a signed integer most often.
    fn mark_with(&mut self, made: &mut Vec<usize>, marked: usize) {
        let left = self.local(marked);
        let right = match self.random.chance(55) {
            true => {
                let ty = self.random.range(6, 9) as u16;
                self.declared(ty)
            }
            false => self.any_value(),
        };
        made.push(self.set(left, right));
    }

    /// The mark goes to another variable, from the left but not from the right.
    fn mark_passed(&mut self, made: &mut Vec<usize>, marked: usize) {
        let other = match self.random.chance(50) {
            true => self.open_let(),
            false => {
                let init = self.int();
                self.let_of(init)
            }
        };
        made.push(other);
        let (a, b) = match self.random.chance(70) {
            true => (marked, other),
            false => (other, marked),
        };
        let pass = self.equate(a, b);
        made.push(pass);
        if self.random.chance(20) {
            let again = self.equate(b, a);
            made.push(again);
        }
        self.mark_with(made, other);
    }
}
