//! Bodies at a limit of document 01, or one past it.

use crate::random::Random;

/// How many limits there are.
const LIMITS: usize = 28;

/// A body at some limit, or one past it.
pub fn at_a_limit(random: &mut Random) -> Vec<u8> {
    let over = usize::from(random.chance(60));
    match random.below(LIMITS) {
        0 => rows(512 + over, 0, 0, 0),
        1 => rows(0, 256 + over, 0, 0),
        2 => rows(0, 0, 64 + over, 0),
        3 => rows(0, 0, 0, 64 + over),
        4 => many_nodes(1024 + over),
        5 => wide_node("list", 64 + over),
        6 => wide_node("block,-", 64 + over),
        7 => called("call,0", 64 + over),
        8 => called("mcall,0,1", 64 + over),
        9 => many_segments(64 + over),
        10 => declared(format!("inst={}", joined("1:8", 64 + over))),
        11 => declared(format!("bind=8,{}", joined("1:0", 64 + over))),
        12 => declared(format!("def=8,{}", joined("8", 16 + over))),
        13 => declared(format!("type=fun,0,8,{}", joined("8", 16 + over))),
        14 => many_params(16 + over, true),
        15 => many_params(16 + over, false),
        16..19 => deep_nodes(64 + over, random.chance(50)),
        19..22 => deep_funs(4 + over, random.chance(50), random.chance(50)),
        22..25 => exact_bytes(65_536 + over),
        25 => both_late(over),
        26 => two_counts(over),
        _ => many_nodes(1024 + over * random.range(1, 40)),
    }
}

fn text(lines: &[String]) -> Vec<u8> {
    let mut whole = lines.join("\n");
    whole.push('\n');
    whole.into_bytes()
}

/// `part` repeated, with commas between.
fn joined(part: &str, count: usize) -> String {
    vec![part; count].join(",")
}

/// The numbers below `count`, each after a comma.
fn counted(count: usize) -> String {
    (0..count).map(|n| format!(",{n}")).collect()
}

fn rows(types: usize, defs: usize, insts: usize, binds: usize) -> Vec<u8> {
    let mut lines: Vec<String> = (0..types).map(|n| format!("type=fun,{n},8")).collect();
    lines.extend((0..defs).map(|n| format!("def={}", n % 13)));
    lines.extend((0..insts).map(|n| format!("inst={}:8", n)));
    lines.extend((0..binds).map(|n| format!("bind={}", n % 13)));
    lines.push("node=bool".to_string());
    lines.push("fn=1,0".to_string());
    text(&lines)
}

/// One declaration, and a def for a bind to name.
fn declared(line: String) -> Vec<u8> {
    let mut lines = vec!["node=bool".to_string(), "fn=1,0".to_string()];
    lines.insert(0, line.clone());
    if line.starts_with("bind") {
        lines.insert(0, "def=8,8".to_string());
    }
    text(&lines)
}

fn many_nodes(count: usize) -> Vec<u8> {
    let mut lines = vec!["node=int".to_string(); count];
    lines.push(format!("fn=9,{}", count - 1));
    text(&lines)
}

fn wide_node(head: &str, count: usize) -> Vec<u8> {
    let mut lines = vec!["node=bool".to_string(); count];
    lines.push(format!("node={head}{}", counted(count)));
    lines.push(format!("fn=0,{count}"));
    text(&lines)
}

fn called(head: &str, count: usize) -> Vec<u8> {
    let mut lines = vec!["node=bool".to_string(); count + 1];
    let args: String = (1..=count).map(|n| format!(",{n}")).collect();
    lines.push(format!("node={head}{args}"));
    lines.push(format!("fn=0,{}", count + 1));
    text(&lines)
}

fn many_segments(count: usize) -> Vec<u8> {
    let path = format!("node=path,e,0,{}", joined("1:o", count));
    text(&[path, "fn=12,0".to_string()])
}

/// Parameters of a lambda, or of the function.
fn many_params(count: usize, of_lambda: bool) -> Vec<u8> {
    let mut lines = vec!["node=param,8".to_string(); count];
    lines.push("node=bool".to_string());
    if of_lambda {
        lines.push(format!("node=lambda,-,{count}{}", counted(count)));
        lines.push(format!("fn=12,{}", count + 1));
    } else {
        lines.push(format!("fn=1,{count}{}", counted(count)));
    }
    text(&lines)
}

/// A chain of references, as the body or unused beside it.
fn deep_nodes(levels: usize, unused: bool) -> Vec<u8> {
    let mut lines = vec!["node=int".to_string()];
    lines.extend((0..levels - 1).map(|child| format!("node=un,r,{child}")));
    if unused {
        lines.push("node=bool".to_string());
    }
    lines.push(format!("fn=12,{}", lines.len() - 1));
    text(&lines)
}

/// `fun` in `fun`, by output or by input, arrays between or not.
fn deep_funs(levels: usize, by_input: bool, arrays: bool) -> Vec<u8> {
    let mut lines = Vec::new();
    let mut last = 8;
    for _ in 0..levels {
        lines.push(match by_input {
            true => format!("type=fun,0,8,8,{last}"),
            false => format!("type=fun,0,{last}"),
        });
        last = 13 + lines.len();
        if arrays {
            lines.push(format!("type=array,{last}"));
            last = 13 + lines.len();
        }
    }
    lines.push("node=bool".to_string());
    lines.push("fn=1,0".to_string());
    text(&lines)
}

/// A body of exactly this many bytes.
fn exact_bytes(bytes: usize) -> Vec<u8> {
    let mut left = bytes - "node=bool\nfn=1,127\n".len();
    let mut lines = Vec::new();
    for line in 0..127 {
        let share = left / (127 - line);
        lines.push(path_of(share));
        left -= share;
    }
    lines.push("node=bool".to_string());
    lines.push("fn=1,127".to_string());
    text(&lines)
}

/// A path line of this many bytes, its line feed counted; its names are ones.
fn path_of(bytes: usize) -> String {
    let mut line = "node=path,e,0".to_string();
    let mut left = bytes - line.len() - 1;
    while left > 0 {
        let part = match left {
            16.. => 8,
            9..16 => left / 2,
            _ => left,
        };
        line.push(',');
        line.push_str(&"1".repeat(part - 3));
        line.push_str(":o");
        left -= part;
    }
    line
}

/// Too many levels, and a forward reference that is judged before.
fn both_late(over: usize) -> Vec<u8> {
    let mut whole = b"type=inst,0\n".to_vec();
    if over == 0 {
        whole.extend(b"inst=\n");
    }
    whole.extend(deep_nodes(65, false));
    whole
}

/// Two counts past their limit in two lines: the first counts.
fn two_counts(over: usize) -> Vec<u8> {
    let inst = format!("inst={}", joined("1:8", 65));
    let def = format!("def=8,{}", joined("8", 16 + over));
    let lines = [def, inst, "node=bool".to_string(), "fn=1,0".to_string()];
    text(&lines)
}
