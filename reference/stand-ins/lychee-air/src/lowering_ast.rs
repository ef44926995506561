//! Stand-ins for AirId and AirMap.
use crate::node::{Bind, Expr, Field, FnSig, Lambda, Node, ThingKind};
use lychee_ast::Name;
use lychee_util::def::{BodyId, DefId, DefPath, DefType};
use lychee_util::map::Map;
use lychee_util::symbols::SymbolId;

lychee_util::newtyped_index!(AirId, AirIdMap, AirIdVec);

#[derive(Default)]
pub struct AirMap<'a> {
    pub def_types: Map<DefId, DefType>,
    pub defs: Map<DefId, Node<'a>>,
    pub fns: Map<DefId, &'a FnSig<'a>>,
    pub lambdas: Map<DefId, &'a Lambda<'a>>,
    pub bodies: Map<BodyId, &'a Expr<'a>>,
    /// All nodes that `binds_for_type` looks through, in file order.
    pub nodes: Vec<Node<'a>>,
}

impl<'a> AirMap<'a> {
    pub fn def_type(&self, did: DefId) -> DefType {
        self.def_types[&did]
    }
    pub fn get_def(&self, did: DefId) -> &Node<'a> {
        &self.defs[&did]
    }
    pub fn get_instance_of_ctor(&self, _did: DefId) -> DefId {
        unimplemented!("stand-in: def rows answer fn_sig_for for constructors too")
    }
    pub fn expect_fn(&self, did: DefId) -> (&'a FnSig<'a>, SymbolId) {
        (self.fns[&did], SymbolId::DUMMY)
    }
    pub fn expect_instance(&self, did: DefId) -> (&'a [Field<'a>], Name) {
        match self.defs[&did] {
            Node::Thing(t) => match t.kind {
                ThingKind::Instance { fields, name, .. } => (fields, name),
                _ => panic!("stand-in: not an instance"),
            },
            _ => panic!("stand-in: not an instance"),
        }
    }
    pub fn expect_lambda(&self, did: DefId) -> &'a Lambda<'a> {
        self.lambdas[&did]
    }
    pub fn expect_bind(&self, _did: DefId) -> &'a Bind<'a> {
        unimplemented!("stand-in: names are only for messages")
    }
    pub fn body_of(&self, _did: DefId) -> &'a Expr<'a> {
        unimplemented!("stand-in: not used by typeck")
    }
    pub fn get_body(&self, bid: BodyId) -> &'a Expr<'a> {
        self.bodies[&bid]
    }
    pub fn parent(&self, _did: DefId) -> DefId {
        unimplemented!("stand-in: names are only for messages")
    }
    pub fn def_path(&self, _did: DefId) -> DefPath {
        unimplemented!("stand-in: names are only for messages")
    }
    pub fn nodes(&self) -> &[Node<'a>] {
        &self.nodes
    }
}
