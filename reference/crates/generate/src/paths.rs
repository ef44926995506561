//! Paths of every form: whole, failed, hidden, and locals not yet typed.

use crate::builder::{Builder, Shape};
use crate::draft::{ERR, NIL, Node, Res, Row, U64};

impl Builder {
    /// A segment, failed or not.
    fn segment(&mut self, percent: usize) -> (u16, Res) {
        let res = match self.random.chance(percent) {
            true => Res::Error,
            false => self.some_res(),
        };
        (self.name(), res)
    }

    fn some_res(&mut self) -> Res {
        match self.random.maybe(&self.locals) {
            Some(local) if self.random.chance(40) => Res::Local(local.node),
            _ if self.random.chance(5) => Res::Other,
            _ => self.declared_res(),
        }
    }

    /// A path with a failed segment.
    fn failed_path(&mut self) -> usize {
        let count = self.random.range(0, 3);
        let mut segments: Vec<_> = (0..count).map(|_| self.segment(40)).collect();
        segments.push(self.segment(50));
        if segments.iter().all(|s| s.1 != Res::Error) {
            segments[0].1 = Res::Error;
        }
        let res = match self.random.below(16) {
            0..3 => Res::Error,
            3 => self.some_res(),
            _ => Res::Inst(self.random.below(self.draft.insts.len())),
        };
        let resolved = match self.random.below(20) {
            0 => self.random.pick(&[segments.len(), segments.len() + 1, 65535]),
            _ => self.random.below(segments.len()),
        };
        self.emit(Node::Path(res, resolved, segments))
    }

    /// A failed path that finds a method, so that it can be called.
    fn found_path(&mut self) -> Option<(usize, usize)> {
        let (on, items) = self.random.maybe(&self.draft.binds)?;
        let (name, _) = self.random.maybe(&items)?;
        let last = match self.draft.row_of(on) {
            None if on == ERR => Res::Error,
            Some(&Row::Inst(inst)) => Res::Inst(inst),
            _ => {
                let shape = Shape::Row(on);
                let local = self.locals.iter().find(|l| l.shape == shape)?;
                Res::Local(local.node)
            }
        };
        let def = self.draft.method(on, name)?;
        let mut segments = vec![(name, Res::Error), (name, last)];
        if self.random.chance(30) {
            segments.insert(0, (name, Res::Other));
        }
        let resolved = self.random.below(segments.len());
        let node = self.emit(Node::Path(Res::Inst(0), resolved, segments));
        Some((node, def))
    }

    fn path_theme(&mut self, made: &mut Vec<usize>) {
        let node = match self.random.below(24) {
            0..7 => self.failed_path(),
            7..13 => match self.found_path() {
                Some((path, def)) => self.called_path(path, def),
                None => self.failed_path(),
            },
            13..16 => return self.not_yet(made),
            16 if self.random.chance(40) => self.path(Res::Other),
            17 if self.random.chance(40) => self.emit(Node::Str),
            18 => return self.hidden(made),
            19 => {
                let count = self.random.range(2, 9);
                let res = self.declared_res();
                let segments = (0..count).map(|_| self.segment(0)).collect();
                self.emit(Node::Path(res, count, segments))
            }
            _ => {
                let res = self.declared_res();
                self.path(res)
            }
        };
        made.push(match self.random.chance(50) {
            true => self.let_of(node),
            false => node,
        });
    }

    fn called_path(&mut self, path: usize, def: usize) -> usize {
        if self.random.chance(30) {
            return path;
        }
        let inputs = self.draft.defs[def][1..].iter();
        let shapes: Vec<Shape> = inputs.map(|t| Shape::Row(*t)).collect();
        let args = match self.random.chance(70) {
            true => self.arguments(&shapes, 4),
            false => self.some_args(3),
        };
        self.call(path, args)
    }

    /// A local read before the walk has typed it, as whole path or last segment.
    fn not_yet(&mut self, made: &mut Vec<usize>) {
        let late = match self.random.chance(60) {
            true => self.typed_let(U64),
            false => self.emit(Node::Param(None)),
        };
        let path = match self.random.chance(70) {
            true => self.local(late),
            false => {
                let segments = vec![(1, Res::Error), (2, Res::Local(late))];
                self.emit(Node::Path(Res::Inst(0), 0, segments))
            }
        };
        let is_let = matches!(self.draft.nodes[late], Node::Let(..));
        match self.random.chance(35) {
            true if is_let => made.extend([late, path]),
            _ if is_let => made.extend([path, late]),
            _ => {
                let body = self.int();
                let lambda = self.emit(Node::Lambda(None, body, vec![late]));
                let first = self.random.chance(35);
                made.extend(if first { [lambda, path] } else { [path, lambda] });
            }
        }
    }

    /// What would end the walk, where the walk does not come.
    fn hidden(&mut self, made: &mut Vec<usize>) {
        let secret = match self.random.below(3) {
            0 => self.emit(Node::Str),
            1 => self.path(Res::Other),
            _ => {
                let untyped = self.emit(Node::Param(None));
                self.local(untyped)
            }
        };
        let shown = match self.random.chance(70) {
            true => self.error(),
            false => self.boolean(),
        };
        let name = self.name();
        made.push(match self.random.below(3) {
            0 => self.call(shown, vec![secret]),
            1 => self.emit(Node::Method(shown, name, vec![secret])),
            _ => self.emit(Node::Index(shown, secret)),
        });
    }

    pub fn paths_body(mut self) -> Vec<u8> {
        self.method_tables();
        let types: Vec<u16> = self.draft.binds.iter().map(|bind| bind.0).take(3).collect();
        self.params(&types);
        let mut made = Vec::new();
        for _ in 0..self.random.range(1, 4) {
            self.path_theme(&mut made);
        }
        let tail = self.random.chance(25).then(|| self.failed_path());
        let result = if tail.is_some() { ERR } else { NIL };
        self.finish(result, tail, made)
    }
}
