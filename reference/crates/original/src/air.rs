//! The AIR of a body: what the source's front end would hand to the checker.
use body::{Bin, Body, Node as N, Res, Type, Un};
use lychee_air::lowering_ast::{AirId, AirMap};
use lychee_air::node::{
    AirLiteral, AssignOp, Bind, BindItem, BindItemKind, Block, Constant, Expr, ExprKind, Field, FnSig, Lambda, Local,
    Node, Param, Path, PathSeg, Stmt, StmtKind, Thing, ThingKind, Ty, TyKind,
};
use lychee_ast::{BinOp, Name, UnaryOp};
use lychee_middle::typing::fun_cx::observe::{File, SPAN_BIND_ITEM, SPAN_NODE, SPAN_SIGNATURE, SPAN_TYPE};
use lychee_util::arena::Arena;
use lychee_util::def::{BodyId, DefId, DefType, IntTy, PrimTy, Resolved};
use lychee_util::sources::SourceId;
use lychee_util::span::Span;
use lychee_util::symbols::SymbolId;
use std::cell::RefCell;
use std::collections::{HashMap, HashSet};

// The series of definitions: `def` rows from 0, then these.
const INST: u32 = 1_000;
pub const FN: u32 = 5_000;
const BIND: u32 = 6_000;
const FIELD: u32 = 10_000;
const LAMBDA: u32 = 100_000;

const NO_AIR: AirId = AirId::DUMMY;

type Exprs = &'static [Expr<'static>];

fn symbol(name: u32) -> SymbolId {
    SymbolId::intern(&name.to_string())
}

fn node_span(n: usize) -> Span {
    Span::new(n as u32, n as u32, SPAN_NODE, SourceId::ZERO)
}

fn air_id(n: usize) -> AirId {
    AirId::new_usize(n)
}

fn inst(k: usize) -> DefId {
    DefId::new(INST + k as u32)
}

fn resolved(r: Res) -> Resolved<AirId> {
    match r {
        Res::Local(n) => Resolved::Local(air_id(n)),
        Res::Fun(d) => Resolved::Def(DefId::new_usize(d), DefType::Fun),
        Res::Ctor(d) => Resolved::Def(DefId::new_usize(d), DefType::AdtCtor),
        Res::Inst(k) => Resolved::Def(inst(k), DefType::Instance),
        Res::Error => Resolved::Err,
        Res::Other => Resolved::Prim(PrimTy::Bool),
    }
}

/// Written types, as `lower_ty` takes them.
pub struct Types<'b> {
    a: &'static Arena,
    body: &'b Body,
    /// Those that stand in no let, so that rows share their parts.
    made: RefCell<HashMap<usize, &'static Ty<'static>>>,
}

impl<'b> Types<'b> {
    pub fn new(a: &'static Arena, body: &'b Body) -> Self {
        Types { a, body, made: RefCell::default() }
    }

    /// The type of a number.
    pub fn written(&self, t: usize) -> &'static Ty<'static> {
        if let Some(ty) = self.made.borrow().get(&t) {
            return ty;
        }
        let ty = self.spanned(t, SourceId::ZERO);
        self.made.borrow_mut().insert(t, ty);
        ty
    }

    /// The same where a let declares it: its span tells the let.
    fn of_let(&self, t: usize, node: usize) -> &'static Ty<'static> {
        self.spanned(t, SourceId::tagged(node as u32 + 1))
    }

    fn spanned(&self, t: usize, source: SourceId) -> &'static Ty<'static> {
        let (number, kind) = self.kind(t);
        self.a.alloc(Ty::new(Span::new(number, number, SPAN_TYPE, source), NO_AIR, kind))
    }

    /// The number that its span has, SPAN of a function and 0 of others, and its kind.
    fn kind(&self, t: usize) -> (u32, TyKind<'static>) {
        let path = |res| TyKind::Path(self.a.alloc(Path::new(res, &[], Span::DUMMY, NO_AIR, 0)));
        let prim = |p: PrimTy| (0, path(Resolved::Prim(p)));
        match t {
            0 => prim(PrimTy::Nil),
            1 => prim(PrimTy::Bool),
            2 => prim(PrimTy::Uint(IntTy::N8)),
            3 => prim(PrimTy::Uint(IntTy::N16)),
            4 => prim(PrimTy::Uint(IntTy::N32)),
            5 => prim(PrimTy::Uint(IntTy::N64)),
            6 => prim(PrimTy::Int(IntTy::N8)),
            7 => prim(PrimTy::Int(IntTy::N16)),
            8 => prim(PrimTy::Int(IntTy::N32)),
            9 => prim(PrimTy::Int(IntTy::N64)),
            10 => prim(PrimTy::Float),
            11 => prim(PrimTy::Double),
            12 => (0, TyKind::Err),
            13 => unreachable!("the reader refuses a written 13"),
            _ => match &self.body.types[t - body::FIXED_TYPES] {
                Type::Array(e) => (0, TyKind::Array(self.written(*e))),
                Type::Fun { span, output, inputs } => {
                    let inputs = self.a.alloc_from_iter(inputs.iter().map(|i| *self.written(*i)));
                    (*span, TyKind::Fun { inputs, output: Some(self.written(*output)) })
                }
                Type::Inst(k) => (0, path(Resolved::Def(inst(*k), DefType::Instance))),
                // `lower_ty` gives FnDef for a constructor alone.
                Type::Fn(d) => (0, path(Resolved::Def(DefId::new_usize(*d), DefType::AdtCtor))),
            },
        }
    }
}

/// The map of a body, and what the report needs to know of it.
pub fn build(a: &'static Arena, body: &Body) -> (AirMap<'static>, File) {
    let mut b =
        Builder { a, body, types: Types::new(a, body), map: AirMap::default(), exprs: Vec::new(), parts: Vec::new() };
    b.defs();
    let inst_names = b.insts();
    b.binds();
    for n in 0..body.nodes.len() {
        b.node(n);
    }
    b.function();
    let conditions = body.nodes.iter().filter_map(|n| match n {
        N::If { condition, .. } => Some(*condition as u32),
        _ => None,
    });
    let file = File {
        nodes: body.nodes.len(),
        declared: body::FIXED_TYPES + body.types.len(),
        conditions: conditions.collect::<HashSet<u32>>(),
        lambda_base: LAMBDA as usize,
        inst_names,
    };
    (b.map, file)
}

/// What a node is beside an expression.
#[derive(Clone, Copy)]
enum Part {
    Expression,
    Block(&'static Block<'static>),
    Local(&'static Local<'static>),
    Param(Param<'static>),
}

struct Builder<'b> {
    a: &'static Arena,
    body: &'b Body,
    types: Types<'b>,
    map: AirMap<'static>,
    /// By node number, children first; none for a let and a param.
    exprs: Vec<Option<&'static Expr<'static>>>,
    parts: Vec<Part>,
}

impl Builder<'_> {
    fn signature(&self, out: usize, inputs: &[(usize, AirId, Span)], body: usize) -> &'static FnSig<'static> {
        let span = Span::new(0, 0, SPAN_SIGNATURE, SourceId::ZERO);
        let params = self.a.alloc_from_iter(inputs.iter().map(|(t, id, span)| {
            let name = Name { interned: SymbolId::DUMMY, span: *span };
            Param::new(name, self.types.written(*t), *id)
        }));
        self.a.alloc(FnSig::new(span, self.types.written(out), params, BodyId::new_usize(body)))
    }

    /// `def` rows: functions whose signatures the source's `fn_sig_for` lowers.
    fn defs(&mut self) {
        for (d, (out, inputs)) in self.body.defs.iter().enumerate() {
            let inputs: Vec<_> = inputs.iter().map(|t| (*t, NO_AIR, Span::DUMMY)).collect();
            let did = DefId::new_usize(d);
            self.map.fns.insert(did, self.signature(*out, &inputs, 0));
            self.map.def_types.insert(did, DefType::Fun);
        }
    }

    /// `inst` rows, each with a name of its own; their names.
    fn insts(&mut self) -> Vec<SymbolId> {
        let mut names = Vec::new();
        let mut next_field = FIELD;
        for (k, fields) in self.body.insts.iter().enumerate() {
            let name = SymbolId::intern(&format!("inst{k}"));
            names.push(name);
            let mut made = Vec::new();
            for (field_name, t) in fields {
                let did = DefId::new(next_field);
                next_field += 1;
                let name = Name { interned: symbol(*field_name), span: Span::DUMMY };
                let field = Field::new(Constant::No, Span::DUMMY, NO_AIR, name, did, self.types.written(*t));
                self.map.def_types.insert(did, DefType::Field);
                self.map.defs.insert(did, Node::Field(self.a.alloc(field)));
                made.push(field);
            }
            let kind = ThingKind::Instance {
                fields: self.a.alloc_from_iter(made),
                name: Name { interned: name, span: Span::DUMMY },
                ctor_id: (NO_AIR, DefId::DUMMY),
            };
            let did = inst(k);
            let node = Node::Thing(self.a.alloc(Thing::new(kind, Span::DUMMY, NO_AIR, did)));
            self.map.def_types.insert(did, DefType::Instance);
            self.map.defs.insert(did, node);
            self.map.nodes.push(node);
        }
        names
    }

    /// `bind` rows. The span of an item tells the def that it names.
    fn binds(&mut self) {
        for (i, (t, items)) in self.body.binds.iter().enumerate() {
            let items = self.a.alloc_from_iter(items.iter().map(|(name, d)| {
                let did = DefId::new_usize(*d);
                let span = Span::new(*d as u32, *d as u32, SPAN_BIND_ITEM, SourceId::ZERO);
                let kind = BindItemKind::Fun { sig: self.map.fns[&did], name: symbol(*name) };
                BindItem::new(NO_AIR, did, span, kind)
            }));
            let bind = Bind { with: self.types.written(*t), items, mask: None };
            let did = DefId::new(BIND + i as u32);
            let thing = Thing::new(ThingKind::Bind(bind), Span::DUMMY, NO_AIR, did);
            self.map.def_types.insert(did, DefType::Bind);
            self.map.nodes.push(Node::Thing(self.a.alloc(thing)));
        }
    }

    fn expr(&self, n: usize) -> &'static Expr<'static> {
        self.exprs[n].expect("an expression")
    }

    fn some(&self, n: Option<usize>) -> Option<&'static Expr<'static>> {
        n.map(|n| self.expr(n))
    }

    fn many(&self, of: &[usize]) -> Exprs {
        self.a.alloc_from_iter(of.iter().map(|n| *self.expr(*n)))
    }

    fn block(&self, n: usize) -> &'static Block<'static> {
        match self.parts[n] {
            Part::Block(b) => b,
            _ => unreachable!("the reader refuses another BLOCK"),
        }
    }

    fn param(&self, n: usize) -> Param<'static> {
        match self.parts[n] {
            Part::Param(p) => p,
            _ => unreachable!("the reader refuses another P"),
        }
    }

    fn node(&mut self, n: usize) {
        let name = Name { interned: SymbolId::DUMMY, span: node_span(n) };
        let mut part = Part::Expression;
        let kind = match &self.body.nodes[n] {
            N::Bool => Some(ExprKind::Literal(AirLiteral::Bool(n % 2 == 0))),
            N::Int if n % 2 == 0 => Some(ExprKind::Literal(AirLiteral::Int(1))),
            N::Int => Some(ExprKind::Literal(AirLiteral::Uint(1))),
            N::Float => Some(ExprKind::Literal(AirLiteral::Float(0.5))),
            N::Str => Some(ExprKind::Literal(AirLiteral::Str(SymbolId::DUMMY))),
            N::Bin(op, l, r) => {
                Some(ExprKind::Binary { lhs: self.expr(*l), rhs: self.expr(*r), op: one_of(binary(*op), n) })
            }
            N::Un(op, e) => Some(ExprKind::Unary { target: self.expr(*e), op: unary(*op) }),
            N::Field(e, f) => Some(ExprKind::Field { src: self.expr(*e), field: symbol(*f) }),
            N::List(es) => Some(ExprKind::List(self.many(es))),
            N::Index { thing, index } => {
                Some(ExprKind::Index { index: self.expr(*index), indexed_thing: self.expr(*thing) })
            }
            N::Assign(v, e) => Some(ExprKind::Assign { variable: self.expr(*v), value: self.expr(*e) }),
            N::OpAssign(v, e) => Some(ExprKind::AssignWithOp {
                variable: self.expr(*v),
                value: self.expr(*e),
                op: one_of(&[AssignOp::Add, AssignOp::Sub, AssignOp::ShiftLeft, AssignOp::And], n),
            }),
            N::If { condition, block, otherwise } => Some(ExprKind::If {
                condition: self.expr(*condition),
                block: self.block(*block),
                else_: self.some(*otherwise),
            }),
            N::Loop(b) => Some(ExprKind::Loop { body: self.block(*b), label: NO_AIR }),
            N::Break => Some(ExprKind::Break(NO_AIR)),
            N::Call(f, args) => Some(ExprKind::Call { function: self.expr(*f), args: self.many(args) }),
            N::MethodCall { receiver, name, args } => Some(ExprKind::MethodCall {
                receiver: self.expr(*receiver),
                method: symbol(*name),
                args: self.many(args),
            }),
            N::Return(e) => Some(ExprKind::Return { expr: self.some(*e) }),
            N::Block { tail, statements } => {
                let statements = self.a.alloc_from_iter(statements.iter().map(|i| self.statement(*i)));
                let block: &'static Block<'static> =
                    self.a.alloc(Block::new(node_span(n), statements, air_id(n), self.some(*tail)));
                part = Part::Block(block);
                Some(ExprKind::Block { label: None, body: block })
            }
            N::Let { ty, init } => {
                let ty = ty.map(|t| self.types.of_let(t, n));
                part = Part::Local(self.a.alloc(Local::new(Constant::No, name, air_id(n), ty, self.some(*init))));
                None
            }
            N::Param(t) => {
                let ty = match t {
                    Some(t) => self.types.written(*t),
                    None => self.a.alloc(Ty::new(node_span(n), NO_AIR, TyKind::Infer)),
                };
                part = Part::Param(Param::new(name, ty, air_id(n)));
                None
            }
            N::Lambda { output, body, params } => Some(ExprKind::Lambda(self.lambda(n, *output, *body, params))),
            N::Path { res, resolved: count, segments } => {
                let segments = self.a.alloc_from_iter(segments.iter().map(|(s, r)| PathSeg {
                    id: NO_AIR,
                    res: resolved(*r),
                    sym: symbol(*s),
                }));
                Some(ExprKind::Path(self.a.alloc(Path::new(resolved(*res), segments, node_span(n), air_id(n), *count))))
            }
        };
        let expr = kind.map(|k| &*self.a.alloc(Expr::new(k, node_span(n), air_id(n))));
        self.exprs.push(expr);
        self.parts.push(part);
    }

    fn statement(&self, n: usize) -> Stmt<'static> {
        let kind = match self.parts[n] {
            Part::Local(l) => StmtKind::Local(l),
            _ => StmtKind::Expr(self.expr(n)),
        };
        Stmt::new(node_span(n), kind, air_id(n))
    }

    fn lambda(&mut self, n: usize, output: Option<usize>, body: usize, params: &[usize]) -> &'static Lambda<'static> {
        let did = DefId::new(LAMBDA + n as u32);
        let body_id = BodyId::new_usize(body);
        self.map.bodies.insert(body_id, self.expr(body));
        let lambda: &'static Lambda<'static> = self.a.alloc(Lambda {
            did,
            inputs: self.a.alloc_from_iter(params.iter().map(|p| self.param(*p))),
            output: output.map(|t| *self.types.written(t)),
            body: body_id,
            span: node_span(n),
            expr_air_id: air_id(n),
        });
        self.map.lambdas.insert(did, lambda);
        self.map.def_types.insert(did, DefType::Lambda);
        lambda
    }

    /// The `fn` line.
    fn function(&mut self) {
        let b = self.body;
        let inputs: Vec<_> = b
            .params
            .iter()
            .map(|p| match b.nodes[*p] {
                N::Param(Some(t)) => (t, air_id(*p), node_span(*p)),
                _ => unreachable!("the reader refuses another P"),
            })
            .collect();
        let did = DefId::new(FN);
        self.map.fns.insert(did, self.signature(b.output, &inputs, b.body));
        self.map.def_types.insert(did, DefType::Fun);
        self.map.bodies.insert(BodyId::new_usize(b.body), self.expr(b.body));
    }
}

/// One of a class of operators; which one depends on the node.
fn one_of<T: Copy>(class: &[T], n: usize) -> T {
    class[n % class.len()]
}

fn binary(op: Bin) -> &'static [BinOp] {
    use BinOp::*;
    match op {
        Bin::Boolean => &[LogicalOr, LogicalAnd, NotEquality, Equality],
        Bin::Ordering => &[Greater, GreaterOrEqual, Lower, LowerOrEqual],
        Bin::Arithmetic => &[Add, Sub, Mul, Div, Mod, Shl, Shr, BitAnd, BitOr, BitXor],
    }
}

fn unary(op: Un) -> UnaryOp {
    match op {
        Un::Deref => UnaryOp::Deref,
        Un::Address => UnaryOp::AddrOf,
        Un::Negation => UnaryOp::Negation,
        Un::Not => UnaryOp::Not,
    }
}
