//! Declarations: types, defs, insts and binds that fit one another, or not.

use crate::builder::Builder;
use crate::draft::{BOOL, ERR, F64, FIRST_ROW, I32, Row, U64};

impl Builder {
    /// A type of the first twelve, the common ones more often.
    pub fn basic(&mut self) -> u16 {
        match self.random.chance(65) {
            true => self.random.pick(&[I32, I32, U64, BOOL, F64, 9]),
            false => self.random.below(12) as u16,
        }
    }

    /// A plain type: a basic one, an instance or an array of plain types.
    pub fn plain(&mut self) -> u16 {
        let last = self.draft.types.len();
        for _ in 0..3 {
            let number = FIRST_ROW + self.random.below(last + 6) as u16;
            if self.draft.row_of(number).is_some() && self.draft.is_plain(number) {
                return number;
            }
        }
        self.basic()
    }

    /// A type an expression can be made for so that it meets it: plain or `fun`.
    pub fn wanted(&mut self) -> u16 {
        if self.random.chance(15)
            && let Some(number) = self.some_fun()
        {
            return number;
        }
        self.plain()
    }

    /// Any type that may be written, err now and then.
    pub fn any_type(&mut self) -> u16 {
        match self.random.below(10) {
            0 => ERR,
            1..5 => self.basic(),
            _ => {
                let limit = 12 + self.draft.types.len();
                let number = self.random.below(limit) as u16;
                if number < 12 { number } else { number + 2 }
            }
        }
    }

    /// Some `fun` row.
    pub fn some_fun(&mut self) -> Option<u16> {
        let rows = self.draft.types.iter().zip(FIRST_ROW..);
        let funs: Vec<u16> = rows.filter(|(row, _)| matches!(row, Row::Fun(..))).map(|(_, number)| number).collect();
        self.random.maybe(&funs)
    }

    /// Output and inputs of a `fun`.
    pub fn fun_parts(&self, number: u16) -> Option<(u16, Vec<u16>)> {
        match self.draft.row_of(number) {
            Some(Row::Fun(_, output, inputs)) => Some((*output, inputs.clone())),
            _ => None,
        }
    }

    /// Declarations as a script has them: every def can be called without error.
    pub fn tidy_tables(&mut self) {
        let insts = self.random.below(3);
        for inst in 0..insts {
            self.draft.row(Row::Inst(inst));
        }
        for _ in 0..self.random.range(1, 4) {
            let element = self.plain();
            self.draft.row(Row::Array(element));
        }
        for _ in 0..self.random.below(4) {
            self.tidy_fun();
        }
        if self.random.chance(25)
            && let Some(fun) = self.some_fun()
        {
            self.draft.row(Row::Array(fun));
        }
        for _ in 0..insts {
            let count = self.random.below(4);
            let fields = (0..count).map(|_| (self.name(), self.plain())).collect();
            self.draft.insts.push(fields);
        }
        for _ in 0..self.random.below(4) {
            let mut def = vec![self.plain()];
            def.extend((0..self.random.below(4)).map(|_| self.wanted()));
            self.draft.defs.push(def);
        }
        for _ in 0..self.random.below(4) {
            self.tidy_bind();
        }
    }

    fn tidy_fun(&mut self) {
        let span = self.random.below(3) as u16;
        let output = self.wanted();
        let inputs = (0..self.random.below(4)).map(|_| self.wanted()).collect();
        self.draft.row(Row::Fun(span, output, inputs));
    }

    /// A bind whose methods take its type first.
    fn tidy_bind(&mut self) {
        let on = match self.random.chance(10) {
            true => self.any_type(),
            false => self.plain(),
        };
        let mut items = Vec::new();
        for _ in 0..self.random.below(4) {
            let mut def = vec![self.plain(), on];
            def.extend((0..self.random.below(3)).map(|_| self.wanted()));
            items.push((self.name(), self.draft.defs.len()));
            self.draft.defs.push(def);
        }
        self.draft.binds.push((on, items));
    }

    /// Declarations without care: any type anywhere.
    pub fn wild_tables(&mut self) {
        let insts = self.random.below(4);
        let defs = self.random.below(5);
        for _ in 0..self.random.pick(&[0, 1, 3, 6, 10]) {
            self.wild_row(insts, defs);
        }
        for _ in 0..defs {
            let count = self.random.pick(&[1, 2, 2, 3, 4]);
            let def = (0..count).map(|_| self.any_type()).collect();
            self.draft.defs.push(def);
        }
        for _ in 0..insts {
            let count = self.random.below(4);
            let fields = (0..count).map(|_| (self.name(), self.any_type())).collect();
            self.draft.insts.push(fields);
        }
        if defs > 0 {
            for _ in 0..self.random.below(5) {
                self.wild_bind(defs);
            }
        }
    }

    fn wild_row(&mut self, insts: usize, defs: usize) {
        let row = match self.random.below(20) {
            0..7 => Row::Array(self.any_type()),
            7..14 => {
                let count = self.random.pick(&[0, 1, 1, 2, 3]);
                let output = self.any_type();
                let inputs = (0..count).map(|_| self.any_type()).collect();
                Row::Fun(self.random.below(3) as u16, output, inputs)
            }
            14..17 if insts > 0 => Row::Inst(self.random.below(insts)),
            _ if defs > 0 => Row::Fn(self.random.below(defs)),
            _ => Row::Array(I32),
        };
        self.draft.row(row);
    }

    fn wild_bind(&mut self, defs: usize) {
        let on = self.any_type();
        let count = self.random.below(4);
        let items = (0..count).map(|_| (self.name(), self.random.below(defs))).collect();
        self.draft.binds.push((on, items));
    }
}
