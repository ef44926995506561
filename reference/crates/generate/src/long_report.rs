//! A body whose report is about 65,536 bytes long, to the byte.

use crate::builder::Builder;
use crate::draft::{NIL, Node};

/// The most bytes of a report that is printed.
const PRINTED: usize = 65_536;

/// Method calls that are not found; their names take up the slack.
const CALLS: usize = 25;

impl Builder {
    /// Empty lists, each good for some 76 bytes of report, and method calls for the rest.
    pub fn long_report_body(mut self) -> Vec<u8> {
        let wanted = match self.random.below(5) {
            0 => PRINTED + self.random.range(1, 3000),
            1 => PRINTED - self.random.range(1, 3000),
            2 => PRINTED + 1,
            _ => PRINTED,
        };
        let lists = most_lists(wanted);
        let mut made: Vec<usize> = (0..lists).map(|_| self.list(vec![])).collect();
        let mut slack = wanted - report_bytes(lists);
        for _ in 0..CALLS {
            let digits = slack.min(4);
            slack -= digits;
            let receiver = self.boolean();
            let name = 10_u16.pow(digits as u32);
            made.push(self.emit(Node::Method(receiver, name, vec![])));
        }
        self.block(None, made);
        self.draft.result = NIL;
        self.draft.text()
    }
}

/// The most lists whose report is not longer than wanted.
fn most_lists(wanted: usize) -> usize {
    let (mut fits, mut exceeds) = (700, 970);
    while fits + 1 < exceeds {
        let middle = (fits + exceeds) / 2;
        match report_bytes(middle) <= wanted {
            true => fits = middle,
            false => exceeds = middle,
        }
    }
    fits
}

/// The report's length with so many lists, the names of one digit each.
fn report_bytes(lists: usize) -> usize {
    let statements = lists + CALLS;
    let blocks = statements.div_ceil(60) + 1;
    let last = 14 + 2 * lists;
    let mut bytes = format!("answer=0,-\ntypes={}\nvars={lists}\n", 2 * lists + 1).len();
    bytes += format!("errors={statements}\ntype=array,12\n").len();
    bytes += blocks * "node=0,0,-\n".len();
    for list in 0..lists {
        let own = 14 + 2 * list;
        bytes += format!("type=var,{list}\ntype=array,{own}\nvar=any,-,{list}\n").len();
        bytes += format!("node={},{last},-\nerror=10,0,{list},-\n", own + 1).len();
    }
    for call in 0..CALLS {
        let receiver = lists + 2 * call;
        bytes += format!("node=1,1,-\nnode=12,12,-\nerror=9,0,{receiver},-,1,1\n").len();
    }
    bytes
}
