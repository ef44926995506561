//! The final types, by the source's `resolve_type_variable`, and document 01's report of what `FunCx` holds.
use super::super::*;
#[cfg(feature = "observe")]
use super::branch;
use super::{File, SPAN_BIND_ITEM, SPAN_NODE, SPAN_SIGNATURE, SPAN_TYPE};
use lychee_util::map::Map;
#[cfg(feature = "observe")]
use lychee_util::pooled::disarm_guard;
use lychee_util::recorder::{RECORDS, Record, Value};

#[cfg(not(feature = "observe"))]
thread_local! {
    /// Whether `finish` ends behind the final types, without a report.
    pub static RESOLVE_ONLY: std::cell::Cell<bool> = const { std::cell::Cell::new(false) };
}

/// Before a run.
#[cfg(not(feature = "observe"))]
pub fn start() {
    RECORDS.with_borrow_mut(Vec::clear);
}

/// How many types there are, fixed and declared ones among them.
pub fn types_made<'cx>(s: &'cx Session<'cx>) -> usize {
    s.interned_types.borrow().order().len()
}

/// The number of a type: its place in the order of creation.
pub fn numbers<'cx>(s: &'cx Session<'cx>) -> impl Fn(Ty<'cx>) -> usize {
    let at: Map<usize, usize> =
        s.interned_types.borrow().order().iter().enumerate().map(|(i, p)| (p.addr(), i)).collect();
    move |t: Ty<'cx>| at[&t.0.addr()]
}

/// In the place of the visitor of `typeck`: each typed node's final type in number order, then the report.
pub fn finish<'ty>(coll: TyCollector<'ty>, file: &File) -> String {
    let raw: Vec<Option<Ty<'ty>>> =
        (0..file.nodes).map(|n| coll.cx.node_type.get(&AirId::new_usize(n)).copied()).collect();
    let last: Vec<Option<Ty<'ty>>> = raw.iter().map(|t| t.map(|t| coll.resolve_type_variable(t))).collect();
    #[cfg(feature = "observe")]
    disarm_guard();
    #[cfg(not(feature = "observe"))]
    if RESOLVE_ONLY.get() {
        std::hint::black_box(&last);
        return String::new();
    }
    let mut r = Report { cx: &coll.cx, file, number: numbers(coll.sess), out: String::with_capacity(32 * file.nodes) };
    r.put("answer=0,-\n");
    r.types();
    r.nodes(&raw, &last);
    RECORDS.with_borrow(|records| {
        r.line("errors=", records.len());
        for record in records {
            r.error(record);
        }
    });
    r.out
}

struct Report<'a, 'ty, N: Fn(Ty<'ty>) -> usize> {
    cx: &'a FunCx<'ty>,
    file: &'a File,
    number: N,
    out: String,
}

impl<'ty, N: Fn(Ty<'ty>) -> usize> Report<'_, 'ty, N> {
    fn put(&mut self, text: &str) {
        self.out.push_str(text);
    }

    /// A number behind a text.
    fn with(&mut self, text: &str, n: usize) {
        self.put(text);
        let mut digits = [0; 20];
        let (mut at, mut rest) = (digits.len(), n);
        loop {
            at -= 1;
            digits[at] = b'0' + (rest % 10) as u8;
            rest /= 10;
            if rest == 0 {
                break;
            }
        }
        self.put(std::str::from_utf8(&digits[at..]).unwrap());
    }

    fn line(&mut self, text: &str, n: usize) {
        self.with(text, n);
        self.put("\n");
    }

    fn ty(&mut self, text: &str, t: Ty<'ty>) {
        let n = (self.number)(t);
        self.with(text, n);
    }

    /// A type's number, or `-`.
    fn ty_or_absent(&mut self, t: Option<Ty<'ty>>) {
        match t {
            Some(t) => self.ty("", t),
            None => self.put("-"),
        }
    }

    fn inst_row(&self, name: SymbolId) -> usize {
        self.file.inst_names.iter().position(|x| *x == name).unwrap()
    }

    /// P of a span.
    fn p(&mut self, s: Span) {
        match s.line {
            _ if s == Span::DUMMY => self.put("-"),
            SPAN_NODE => self.with("", s.start as usize),
            SPAN_SIGNATURE => self.put("sig"),
            SPAN_BIND_ITEM => self.with("d", s.start as usize),
            // A let's declared type counts as the let.
            SPAN_TYPE => self.with("", s.sourceid.tag() as usize - 1),
            _ => unreachable!(),
        }
    }

    /// Q of a span.
    fn q(&mut self, s: Span) {
        match s.line {
            SPAN_NODE if s != Span::DUMMY && s.start != s.end => self.with("", s.end as usize),
            _ => self.put("-"),
        }
    }

    /// The types made, then the variables.
    fn types(&mut self) {
        let order = self.cx.s.interned_types.borrow().order().to_vec();
        let made = &order[self.file.declared..];
        self.line("types=", made.len());
        let mut kinds = vec![InferKind::Regular; self.cx.infer_ty_counter as usize];
        for t in made {
            match *t.peek() {
                TyKind::InferTy(i) => {
                    kinds[i.vid.to_usize()] = i.kind;
                    self.with("type=var,", i.vid.to_usize());
                }
                TyKind::Array(e) => self.ty("type=array,", e),
                TyKind::Ref(e) => self.ty("type=ref,", e),
                TyKind::FnDef(d) => self.with("type=fn,", d.to_usize()),
                TyKind::Instance(i) => self.with("type=inst,", self.inst_row(i.peek().name)),
                TyKind::Lambda(env) => {
                    self.with("type=lambda,", env.did.to_usize() - self.file.lambda_base);
                    self.ty(",", env.output);
                    env.all_inputs.iter().for_each(|t| self.ty(",", *t));
                }
                _ => unreachable!("the walk makes no other type"),
            }
            self.put("\n");
        }
        self.variables(&kinds);
    }

    fn variables(&mut self, kinds: &[InferKind]) {
        self.line("vars=", kinds.len());
        for (v, kind) in kinds.iter().enumerate() {
            let id = InferId::new_usize(v);
            self.put(match kind {
                InferKind::Integer => "var=int,",
                InferKind::Float => "var=float,",
                InferKind::Regular => "var=any,",
            });
            self.ty_or_absent(self.cx.ty_var_types.get(&id).copied());
            self.put(",");
            self.p(self.cx.ty_var_origins[&id]);
            self.put("\n");
        }
    }

    fn nodes(&mut self, raw: &[Option<Ty<'ty>>], last: &[Option<Ty<'ty>>]) {
        for (n, (r, f)) in raw.iter().zip(last).enumerate() {
            self.put("node=");
            self.ty_or_absent(*r);
            self.put(",");
            self.ty_or_absent(*f);
            self.put(",");
            self.extra(AirId::new_usize(n));
            self.put("\n");
        }
    }

    /// The `local_tys` type of a let, a method's def, a path's result, or `-`.
    fn extra(&mut self, id: AirId) {
        if let Some(t) = self.cx.local_tys.get(&id) {
            self.ty("", *t);
        } else if let Some(d) = self.cx.resolved_method_calls.get(&id) {
            self.with("", d.to_usize());
        } else {
            match self.cx.resolved_paths.get(&id) {
                None => self.put("-"),
                Some(Resolved::Local(a)) => self.with("l", a.to_usize()),
                Some(Resolved::Def(d, DefType::Fun)) => self.with("f", d.to_usize()),
                Some(Resolved::Def(d, DefType::AdtCtor)) => self.with("c", d.to_usize()),
                Some(Resolved::Def(d, DefType::Instance)) => {
                    self.with("i", self.inst_row(self.cx.s.instance_def(*d).peek().name));
                }
                Some(Resolved::Err) => self.put("e"),
                Some(_) => self.put("o"),
            }
        }
    }

    fn error(&mut self, r: &Record) {
        let error = error_of(r);
        // The variant's place in `TypingError`, and whether an equation raised it.
        let (kind, raised) = match error {
            TypingError::TypeMismatch(a, b) => (0, !self.is_condition(r.span, a, b)),
            TypingError::NoIndexOp { .. } => (1, false),
            TypingError::NoUnaryOp { .. } => (2, false),
            TypingError::NoBinaryOp { .. } => (3, true),
            TypingError::CallingNotFn { .. } => (4, false),
            TypingError::WrongArgumentTy { .. } => (5, true),
            TypingError::WrongArgumentAmnt { .. } => (6, false),
            TypingError::NoField { .. } => (7, false),
            TypingError::NotInstance { .. } => (8, false),
            TypingError::MethodNotFound { .. } => (9, false),
            TypingError::InferFail => (10, false),
        };
        self.with("error=", kind);
        self.with(",", cause(r, raised));
        self.put(",");
        self.p(r.span);
        self.put(",");
        self.q(r.span);
        match error {
            TypingError::TypeMismatch(a, b) | TypingError::NoBinaryOp { lhs: a, rhs: b } => {
                self.ty(",", a);
                self.ty(",", b);
            }
            TypingError::NoIndexOp { on } | TypingError::NoUnaryOp { on } => self.ty(",", on),
            TypingError::CallingNotFn { offender } => self.ty(",", offender),
            TypingError::WrongArgumentTy { expected, got, arg_idx } => {
                self.ty(",", expected);
                self.ty(",", got);
                self.with(",", arg_idx);
            }
            TypingError::WrongArgumentAmnt { amount_given, amount_req } => {
                self.with(",", amount_given);
                self.with(",", amount_req);
            }
            TypingError::NoField { on, field_name: name }
            | TypingError::MethodNotFound { on_ty: on, method_name: name } => {
                self.ty(",", on);
                self.put(",");
                self.put(name.get_interned());
            }
            TypingError::NotInstance { got } => self.ty(",", got),
            TypingError::InferFail => {}
        }
        self.put("\n");
    }

    /// Whether a mismatch is that of an `if`'s condition, which is compared without an equation. No equation's mismatch has
    /// a condition as P, no Q, Bool as the expected type and the condition's own type as the other: of the nodes that can
    /// be a condition, `index` and `return` alone raise a mismatch at themselves, and there the types are u64 and not Bool,
    /// or nil and not Diverges.
    fn is_condition(&self, span: Span, expected: Ty<'ty>, got: Ty<'ty>) -> bool {
        span.line == SPAN_NODE
            && span.start == span.end
            && self.file.conditions.contains(&span.start)
            && expected == self.cx.s.types.bool
            && self.cx.node_type.get(&AirId::new(span.start)) == Some(&got)
    }
}

/// CAUSE of an error.
#[cfg(feature = "observe")]
fn cause(r: &Record, raised: bool) -> usize {
    if raised && !r.note.fails {
        branch::lengths_differed();
    }
    if raised { usize::from(r.note.cause) } else { 0 }
}

#[cfg(not(feature = "observe"))]
fn cause(_: &Record, _: bool) -> usize {
    0
}

/// The error of a record.
fn error_of<'ty>(r: &Record) -> TypingError<'ty> {
    assert!(r.type_name.contains("TypingError"));
    const { assert!(size_of::<TypingError<'_>>() <= size_of::<Value>()) };
    // The bytes are those of a value of this type, which is Copy, and its session is still there.
    unsafe { std::ptr::read_unaligned(r.value.as_ptr().cast()) }
}
