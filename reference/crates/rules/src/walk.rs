//! The walk: one typing rule for each kind of node, as in fun_cx.rs, over one running record.
use crate::types::{BOOL, DIVERGES, ERR, NIL, Pool, Type, U64};
use crate::unify::{Departure, Kind, Outcome, Variables};
use body::{Bin, Body, Node, Res, Un};
use std::rc::Rc;

/// KIND of an error: "the variant's position in `TypingError` from 0".
#[derive(Debug, Clone, Copy, PartialEq, Eq)]
pub enum ErrorKind {
    TypeMismatch,
    NoIndexOp,
    NoUnaryOp,
    NoBinaryOp,
    CallingNotFn,
    WrongArgumentTy,
    WrongArgumentAmnt,
    NoField,
    NotInstance,
    MethodNotFound,
    InferFail,
}

/// P of an error: a node, "`dD` for a bind item", or "`sig` ... for the signature".
#[derive(Debug, Clone, Copy, PartialEq, Eq)]
pub enum Spanned {
    Node(usize),
    BindItem(usize),
    Signature,
}

/// An error row; CAUSE is 0 if no equation raised it.
#[derive(Debug, Clone, PartialEq, Eq)]
pub struct ErrorRow {
    pub kind: ErrorKind,
    pub cause: u8,
    pub p: Spanned,
    pub q: Option<usize>,
    pub values: Vec<usize>,
}

/// EXTRA of a node: "the `local_tys` type of a let, the method's def, the path's `resolved_paths`, else `-`".
#[derive(Debug, Clone, Copy, PartialEq, Eq)]
pub enum Extra {
    Absent,
    LocalType(usize),
    Method(usize),
    Resolved(Res),
}

/// "An equation is one call of `unify(expected, got)` made by a typing rule", at the node whose rule ran.
#[derive(Debug, Clone, Copy, PartialEq, Eq)]
pub struct Equation {
    pub place: usize,
    pub expected: usize,
    pub got: usize,
    pub outcome: Outcome,
}

/// A refusal 10 to 13 and the node whose rule ran.
#[derive(Debug, Clone, Copy, PartialEq, Eq)]
pub struct Refused {
    pub answer: u8,
    pub place: usize,
}

/// "PLACE is ... the node whose rule ran for 10 to 13".
fn refused(answer: u8, place: usize) -> Refused {
    Refused { answer, place }
}

/// A type, or the refusal that ends the walk.
type Typed = Result<usize, Refused>;

/// "The walk keeps one running record, which each rule updates, as `FunCx` does."
#[derive(Debug)]
pub struct Walk<'a> {
    pub body: &'a Body,
    pub pool: Pool,
    pub variables: Variables,
    pub node_type: Vec<Option<usize>>,
    pub extra: Vec<Extra>,
    pub errors: Vec<ErrorRow>,
    pub equations: Vec<Equation>,
    /// The first departure from the source, and the node in whose rule it was.
    pub first_departure: Option<(Departure, usize)>,
}

impl<'a> Walk<'a> {
    /// As `typeck` sets `FunCx` up: no variable, no binding, and P of `fn` typed.
    pub fn new(body: &'a Body) -> Walk<'a> {
        let mut walk = Walk {
            body,
            pool: Pool::new(body),
            variables: Variables::default(),
            node_type: vec![None; body.nodes.len()],
            extra: vec![Extra::Absent; body.nodes.len()],
            errors: Vec::new(),
            equations: Vec::new(),
            first_departure: None,
        };
        for &param in &body.params {
            if let Node::Param(ty) = body.nodes[param] {
                walk.node_type[param] = ty;
            }
        }
        walk
    }

    /// `type_of`: "each node is typed once".
    pub fn type_of(&mut self, node: usize) -> Typed {
        match self.node_type[node] {
            Some(ty) => Ok(ty),
            None => self.expression(node),
        }
    }

    /// `typeck_expr`: the rule of the node's kind; RAW is what it gives.
    fn expression(&mut self, node: usize) -> Typed {
        let body = self.body;
        let ty = match &body.nodes[node] {
            Node::Bool => BOOL,
            Node::Int => self.new_variable(Kind::Int, None),
            Node::Float => self.new_variable(Kind::Float, None),
            // "10 a `str`"
            Node::Str => {
                return Err(refused(10, node));
            }
            Node::Bin(op, left, right) => self.bin(node, *op, *left, *right)?,
            Node::Un(op, operand) => self.un(*op, *operand)?,
            Node::Field(source, name) => self.field(*source, *name)?,
            Node::List(items) => self.list(node, items)?,
            Node::Index { thing, index } => self.index(node, *thing, *index)?,
            Node::Assign(variable, value) => self.assign(node, *variable, *value)?,
            Node::OpAssign(variable, value) => self.op_assign(node, *variable, *value)?,
            Node::If { condition, block, otherwise } => self.if_(node, *condition, *block, *otherwise)?,
            Node::Loop(block) => {
                self.block(*block)?;
                NIL
            }
            Node::Break => DIVERGES,
            Node::Call(callee, args) => self.call(node, *callee, args)?,
            Node::MethodCall { receiver, name, args } => self.method_call(node, *receiver, *name, args)?,
            Node::Return(value) => self.return_(node, *value)?,
            Node::Block { .. } => self.block(node)?,
            Node::Lambda { output, body, params } => self.lambda(node, *output, *body, params)?,
            Node::Path { res, resolved, segments } => self.path(node, *res, *resolved, segments)?,
            // No expression, so in no accepted body.
            Node::Let { .. } | Node::Param(_) => ERR,
        };
        self.node_type[node] = Some(ty);
        Ok(ty)
    }

    /// `typeck_block`: statements, then tail. "the BLOCK of an if or loop has none [no RAW]".
    fn block(&mut self, node: usize) -> Typed {
        let body = self.body;
        let Node::Block { tail, statements } = &body.nodes[node] else {
            return Ok(NIL);
        };
        for &statement in statements {
            self.statement(statement)?;
        }
        tail.map_or(Ok(NIL), |tail| self.type_of(tail))
    }

    /// `typeck_stmt`: a let, or an expression.
    fn statement(&mut self, node: usize) -> Result<(), Refused> {
        if let Node::Let { ty, init } = self.body.nodes[node] {
            let local = self.local(node, ty, init)?;
            self.node_type[node] = Some(local);
        } else {
            self.type_of(node)?;
        }
        Ok(())
    }

    /// `typeck_local`; without type and init it does not enter `local_tys`.
    fn local(&mut self, node: usize, declared: Option<usize>, init: Option<usize>) -> Typed {
        let init = init.map(|init| self.type_of(init)).transpose()?;
        let ty = match (declared, init) {
            (None, None) => return Ok(self.new_variable(Kind::Any, Some(node))),
            (None, Some(init)) => init,
            (Some(declared), None) => declared,
            (Some(declared), Some(init)) => {
                // "a let's declared type counts as the let".
                if let Some(cause) = self.equation(node, declared, init)? {
                    self.type_mismatch(cause, node, declared, init);
                }
                declared
            }
        };
        self.extra[node] = Extra::LocalType(init.unwrap_or(ty));
        Ok(ty)
    }

    /// `typeck_expr_bin_op`: `b` gives Bool, `c` and `a` the type of L, a mismatch err.
    fn bin(&mut self, node: usize, op: Bin, left: usize, right: usize) -> Typed {
        let left_ty = self.type_of(left)?;
        let right_ty = self.type_of(right)?;
        if let Some(cause) = self.equation(node, left_ty, right_ty)? {
            self.error(ErrorKind::NoBinaryOp, cause, Spanned::Node(left), Some(right), &[left_ty, right_ty]);
            return Ok(ERR);
        }
        Ok(match op {
            Bin::Boolean => BOOL,
            Bin::Ordering | Bin::Arithmetic => left_ty,
        })
    }

    /// `typeck_expr_un_op`: negation marks a variable, bound or not.
    fn un(&mut self, op: Un, operand: usize) -> Typed {
        let ty = self.type_of(operand)?;
        let given = match (op, self.pool.get(ty)) {
            (Un::Address, _) => Some(self.pool.intern(Type::Ref(ty))),
            (Un::Deref, Type::Ref(inner)) => Some(*inner),
            (Un::Negation, Type::Int(_)) => Some(ty),
            (Un::Negation, Type::Var(variable)) => {
                self.variables.rows[*variable].marked = true;
                Some(ty)
            }
            (Un::Not, Type::Int(_) | Type::Bool | Type::Uint(_)) => Some(ty),
            _ => None,
        };
        Ok(given.unwrap_or_else(|| {
            self.own_error(ErrorKind::NoUnaryOp, Spanned::Node(operand), &[ty]);
            ERR
        }))
    }

    /// `typeck_expr_field`: the first field of this name.
    fn field(&mut self, source: usize, name: u32) -> Typed {
        let ty = self.type_of(source)?;
        match *self.pool.get(ty) {
            Type::Error => {}
            Type::Inst(inst) => {
                let fields = &self.body.insts[inst];
                if let Some((_, field_ty)) = fields.iter().find(|(field, _)| *field == name) {
                    return Ok(*field_ty);
                }
                self.own_error(ErrorKind::NoField, Spanned::Node(source), &[ty, name as usize]);
            }
            _ => self.own_error(ErrorKind::NotInstance, Spanned::Node(source), &[ty]),
        }
        Ok(ERR)
    }

    /// `typeck_expr_list`: each later element against the first.
    fn list(&mut self, node: usize, items: &[usize]) -> Typed {
        let Some((&first, rest)) = items.split_first() else {
            let element = self.new_variable(Kind::Any, Some(node));
            return Ok(self.pool.intern(Type::Array(element)));
        };
        let element = self.type_of(first)?;
        for &item in rest {
            let ty = self.type_of(item)?;
            if let Some(cause) = self.equation(node, element, ty)? {
                self.type_mismatch(cause, item, element, ty);
            }
        }
        Ok(self.pool.intern(Type::Array(element)))
    }

    /// `typeck_expr_index`: "Args of a failed callee ... stay untyped, as does the index of a non-array."
    fn index(&mut self, node: usize, thing: usize, index: usize) -> Typed {
        let thing_ty = self.type_of(thing)?;
        let Type::Array(element) = *self.pool.get(thing_ty) else {
            self.own_error(ErrorKind::NoIndexOp, Spanned::Node(node), &[thing_ty]);
            return Ok(ERR);
        };
        let index_ty = self.type_of(index)?;
        if let Some(cause) = self.equation(node, U64, index_ty)? {
            self.type_mismatch(cause, node, U64, index_ty);
        }
        Ok(element)
    }

    /// `ExprKind::Assign`: nil; "Q the second of `Span::between`".
    fn assign(&mut self, node: usize, variable: usize, value: usize) -> Typed {
        let variable_ty = self.type_of(variable)?;
        let value_ty = self.type_of(value)?;
        if let Some(cause) = self.equation(node, variable_ty, value_ty)? {
            let values = [variable_ty, value_ty];
            self.error(ErrorKind::TypeMismatch, cause, Spanned::Node(variable), Some(value), &values);
        }
        Ok(NIL)
    }

    /// `ExprKind::AssignWithOp`: nil; its error spans the node itself.
    fn op_assign(&mut self, node: usize, variable: usize, value: usize) -> Typed {
        let variable_ty = self.type_of(variable)?;
        let value_ty = self.type_of(value)?;
        if let Some(cause) = self.equation(node, variable_ty, value_ty)? {
            self.error(ErrorKind::NoBinaryOp, cause, Spanned::Node(node), None, &[variable_ty, value_ty]);
        }
        Ok(NIL)
    }

    /// `typeck_expr_if`: "`if` wants Bool itself, not a variable"; without else it is nil.
    fn if_(&mut self, node: usize, condition: usize, block: usize, otherwise: Option<usize>) -> Typed {
        let condition_ty = self.type_of(condition)?;
        if condition_ty != BOOL {
            self.type_mismatch(0, condition, BOOL, condition_ty);
        }
        let block_ty = self.block(block)?;
        let Some(otherwise) = otherwise else {
            return Ok(NIL);
        };
        let otherwise_ty = self.type_of(otherwise)?;
        if let Some(cause) = self.equation(node, block_ty, otherwise_ty)? {
            self.type_mismatch(cause, otherwise, block_ty, otherwise_ty);
        }
        Ok(block_ty)
    }

    /// `ExprKind::Call`: by the callee's raw type.
    fn call(&mut self, node: usize, callee: usize, args: &[usize]) -> Typed {
        let callee_ty = self.type_of(callee)?;
        let (output, inputs): (usize, Rc<[usize]>) = match self.pool.get(callee_ty) {
            Type::Fn(def) => self.signature(*def),
            Type::Lambda { output, inputs, .. } | Type::Fun { output, inputs, .. } => (*output, inputs.clone()),
            Type::Error => return Ok(ERR),
            _ => {
                self.own_error(ErrorKind::CallingNotFn, Spanned::Node(node), &[callee_ty]);
                return Ok(ERR);
            }
        };
        self.arguments(node, Spanned::Node(node), &inputs, args)?;
        Ok(output)
    }

    /// `typeck_expr_meth_call`: the receiver is argument 0; errors span the bind item.
    fn method_call(&mut self, node: usize, receiver: usize, name: u32, args: &[usize]) -> Typed {
        let receiver_ty = self.type_of(receiver)?;
        if receiver_ty == ERR {
            return Ok(ERR);
        }
        let Some(def) = self.method(receiver_ty, name) else {
            let values = [receiver_ty, name as usize];
            self.own_error(ErrorKind::MethodNotFound, Spanned::Node(receiver), &values);
            return Ok(ERR);
        };
        self.extra[node] = Extra::Method(def);
        let (output, inputs) = self.signature(def);
        let given: Vec<usize> = [receiver].iter().chain(args).copied().collect();
        self.arguments(node, Spanned::BindItem(def), &inputs, &given)?;
        Ok(output)
    }

    /// `verify_arguments_for_call` and `..._method_call`: amounts first; "Extra args are typed."
    fn arguments(&mut self, node: usize, p: Spanned, inputs: &[usize], args: &[usize]) -> Result<(), Refused> {
        if args.len() != inputs.len() {
            self.own_error(ErrorKind::WrongArgumentAmnt, p, &[args.len(), inputs.len()]);
        }
        for (position, &arg) in args.iter().enumerate() {
            let ty = self.type_of(arg)?;
            let Some(&input) = inputs.get(position) else {
                continue;
            };
            if let Some(cause) = self.equation(node, input, ty)? {
                self.error(ErrorKind::WrongArgumentTy, cause, p, None, &[input, ty, position]);
            }
        }
        Ok(())
    }

    /// "A method is sought with `binds_for_type` in file order": equal types, or an array and a bind on arrays of a function type.
    fn method(&self, receiver: usize, name: u32) -> Option<usize> {
        let matches = |with: usize| {
            receiver == with
                || match (self.pool.get(receiver), self.pool.get(with)) {
                    (Type::Array(_), Type::Array(element)) => {
                        matches!(self.pool.get(*element), Type::Fun { .. })
                    }
                    _ => false,
                }
        };
        let mut items = self.body.binds.iter().filter(|(with, _)| matches(*with)).flat_map(|(_, items)| items);
        items.find(|(item, _)| *item == name).map(|(_, def)| *def)
    }

    /// `fn_sig_for`: "`def=OUT,IN..`".
    fn signature(&self, def: usize) -> (usize, Rc<[usize]>) {
        let (output, inputs) = &self.body.defs[def];
        (*output, inputs.as_slice().into())
    }

    /// `ExprKind::Return`: "`return` in a lambda answers to the enclosing function."
    fn return_(&mut self, node: usize, value: Option<usize>) -> Typed {
        let ty = value.map_or(Ok(NIL), |value| self.type_of(value))?;
        let output = self.body.output;
        if let Some(cause) = self.equation(node, output, ty)? {
            self.type_mismatch(cause, value.unwrap_or(node), output, ty);
        }
        Ok(DIVERGES)
    }

    /// `typeck_lambda`: "a lambda always draws an output variable after its inputs, even with a declared output".
    fn lambda(&mut self, node: usize, declared: Option<usize>, inner: usize, params: &[usize]) -> Typed {
        let mut inputs = Vec::new();
        for &param in params {
            let ty = match self.body.nodes[param] {
                Node::Param(Some(ty)) => ty,
                _ => self.new_variable(Kind::Any, Some(param)),
            };
            self.node_type[param] = Some(ty);
            inputs.push(ty);
        }
        let drawn = self.new_variable(Kind::Any, Some(node));
        let output = declared.unwrap_or(drawn);
        let inner_ty = self.type_of(inner)?;
        if let Some(cause) = self.equation(node, output, inner_ty)? {
            self.type_mismatch(cause, inner, output, inner_ty);
        }
        Ok(self.pool.intern(Type::Lambda { node, output, inputs: inputs.into() }))
    }

    /// `typeck_expr_path`: RES if no segment is `e`; else a method of an instance, or the error.
    fn path(&mut self, node: usize, res: Res, resolved: usize, segments: &[(u32, Res)]) -> Typed {
        let partly_failed = segments.iter().any(|(_, segment)| *segment == Res::Error);
        let (res, ty) = match (partly_failed, res, segments.get(resolved), segments.last()) {
            (false, res, _, _) => (res, self.type_of_res(node, res)?),
            (true, Res::Error, _, _) => (Res::Error, ERR),
            // "RESOLVED is not below its number of segments (tested before its last segment is typed)"
            (true, Res::Inst(_), Some((name, _)), Some((_, last))) => {
                let receiver = self.type_of_res(node, *last)?;
                match self.method(receiver, *name) {
                    Some(def) => (Res::Fun(def), self.pool.intern(Type::Fn(def))),
                    None => {
                        let values = [receiver, *name as usize];
                        self.own_error(ErrorKind::MethodNotFound, Spanned::Node(node), &values);
                        (Res::Error, ERR)
                    }
                }
            }
            // "10 ... a partly failed path (some segment is `e`) whose RES is neither `i` nor `e`"
            _ => {
                return Err(refused(10, node));
            }
        };
        self.extra[node] = Extra::Resolved(res);
        Ok(ty)
    }

    /// `type_res`: "10 ... an `o` the rule needs typed", "11 a local not yet typed".
    fn type_of_res(&mut self, node: usize, res: Res) -> Typed {
        match res {
            Res::Fun(def) | Res::Ctor(def) => Ok(self.pool.intern(Type::Fn(def))),
            Res::Inst(inst) => Ok(self.pool.intern(Type::Inst(inst))),
            Res::Local(local) => self.node_type[local].ok_or(refused(11, node)),
            Res::Error => Ok(ERR),
            Res::Other => Err(refused(10, node)),
        }
    }

    /// `new_infer_var`: "ORIGIN is the node that drew it, `-` for a literal."
    fn new_variable(&mut self, kind: Kind, origin: Option<usize>) -> usize {
        let variable = self.variables.draw(kind, origin);
        self.pool.intern(Type::Var(variable))
    }

    /// Raises an equation in the rule of a node; the cause, 1, if it mismatches.
    pub fn equation(&mut self, place: usize, expected: usize, got: usize) -> Result<Option<u8>, Refused> {
        let outcome = self.variables.unify(&self.pool, expected, got);
        if let Some(first) = self.variables.first_departure {
            self.first_departure.get_or_insert((first, place));
        }
        self.equations.push(Equation { place, expected, got, outcome });
        match outcome {
            Outcome::Success => Ok(None),
            Outcome::Mismatch => Ok(Some(1)),
            Outcome::Refused12 => Err(refused(12, place)),
            Outcome::Refused13 => Err(refused(13, place)),
        }
    }

    /// `type_mismatch_err`: at one node.
    fn type_mismatch(&mut self, cause: u8, node: usize, expected: usize, got: usize) {
        let p = Spanned::Node(node);
        self.error(ErrorKind::TypeMismatch, cause, p, None, &[expected, got]);
    }

    /// "CAUSE 0 if no equation raised it".
    fn own_error(&mut self, kind: ErrorKind, p: Spanned, values: &[usize]) {
        self.error(kind, 0, p, None, values);
    }

    /// "one row per error, in order".
    pub fn error(&mut self, kind: ErrorKind, cause: u8, p: Spanned, q: Option<usize>, values: &[usize]) {
        self.errors.push(ErrorRow { kind, cause, p, q, values: values.to_vec() });
    }
}
