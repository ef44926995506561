//! "Rest by test: 1,024 and 1,025 nodes, 64 and 65 levels, 65,536 and 65,537 bytes", and the other limits.
use body::{Refusal, read};

/// Answer and line of a text, 0 and none for an accepted one.
fn answer(text: &str) -> (u8, Option<usize>) {
    match read(text.as_bytes()) {
        Ok(_) => (0, None),
        Err(Refusal { answer, line }) => (answer, line),
    }
}

/// So many equal lines, then a smallest body.
fn rows(line: &str, many: usize) -> String {
    line.repeat(many) + "node=bool\nfn=1,0\n"
}

/// One line of so many items, then a smallest body.
fn items(start: &str, item: &str, many: usize) -> String {
    format!("{start}{}\nnode=bool\nfn=1,0\n", item.repeat(many))
}

#[test]
fn rows_of_each_key() {
    let types = |many: usize| -> String {
        let lines: String = (0..many).map(|span| format!("type=fun,{span},8\n")).collect();
        lines + "node=bool\nfn=1,0\n"
    };
    assert_eq!(answer(&types(512)), (0, None));
    assert_eq!(answer(&types(513)), (4, Some(513)));
    for (line, most) in [("def=8\n", 256), ("inst=\n", 64), ("bind=8\n", 64)] {
        assert_eq!(answer(&rows(line, most)), (0, None));
        assert_eq!(answer(&rows(line, most + 1)), (4, Some(most + 1)));
    }
    let nodes = |many: usize| "node=bool\n".repeat(many) + &format!("fn=1,{}\n", many - 1);
    assert_eq!(answer(&nodes(1024)), (0, None));
    assert_eq!(answer(&nodes(1025)), (4, Some(1025)));
}

#[test]
fn items_of_one_line() {
    for (start, item, most) in
        [("type=fun,0,8", ",8", 16), ("def=8", ",8", 16), ("inst=1:8", ",1:8", 63), ("def=8\nbind=8", ",1:0", 64)]
    {
        let lines = start.lines().count();
        assert_eq!(answer(&items(start, item, most)), (0, None));
        assert_eq!(answer(&items(start, item, most + 1)), (4, Some(lines)));
    }
    let path = |many: usize| format!("node=path,e,0{}\nfn=1,0\n", ",1:e".repeat(many));
    assert_eq!(answer(&path(64)), (0, None));
    assert_eq!(answer(&path(65)), (4, Some(1)));
}

#[test]
fn children_of_one_node() {
    let with = |many: usize, child: &str, start: &str| {
        let lines = format!("node=bool\n{}", format!("node={child}\n").repeat(many));
        let numbers: String = (1..=many).map(|number| format!(",{number}")).collect();
        let start = start.replace('R', "0");
        format!("{lines}node={start}{numbers}\nfn=1,{}\n", many + 1)
    };
    for (start, most) in [("call,R", 64), ("mcall,R,1", 64), ("block,R", 64)] {
        assert_eq!(answer(&with(most, "int", start)), (0, None));
        let line = most + 3;
        assert_eq!(answer(&with(most + 1, "int", start)), (4, Some(line)));
    }
    assert_eq!(answer(&with(63, "int", "list,R")), (0, None));
    assert_eq!(answer(&with(64, "int", "list,R")), (4, Some(66)));
    assert_eq!(answer(&with(16, "param,-", "lambda,-,R")), (0, None));
    assert_eq!(answer(&with(17, "param,-", "lambda,-,R")), (4, Some(19)));
    let fn_line = |many: usize| {
        let numbers: String = (0..many).map(|number| format!(",{number}")).collect();
        format!("{}node=bool\nfn=1,{many}{numbers}\n", "node=param,8\n".repeat(many))
    };
    assert_eq!(answer(&fn_line(16)), (0, None));
    assert_eq!(answer(&fn_line(17)), (4, Some(19)));
}

#[test]
fn levels() {
    let nodes = |levels: usize| {
        let above: String = (0..levels - 1).map(|node| format!("node=un,r,{node}\n")).collect();
        format!("node=bool\n{above}fn=1,{}\n", levels - 1)
    };
    assert_eq!(answer(&nodes(64)), (0, None));
    assert_eq!(answer(&nodes(65)), (6, Some(66)));
    let unused = nodes(65).replace("fn=1,64", "node=bool\nfn=1,65");
    assert_eq!(answer(&unused), (6, Some(67)));
    let funs = "type=fun,0,8\ntype=array,14\ntype=fun,0,15\ntype=fun,0,1,16\ntype=array,17\ntype=fun,0,18\n";
    assert_eq!(answer(&rows(funs, 1)), (0, None));
    let more = format!("{funs}type=array,19\ntype=fun,0,8,8,20\n");
    assert_eq!(answer(&rows(&more, 1)), (6, Some(10)));
}

/// A body of exactly so many bytes, of unused path lines.
fn of_length(length: usize) -> String {
    let mut lines = vec![format!("node=path,e,0{}\n", ",10:e".repeat(64)); 195];
    let end = |nodes: usize| format!("node=bool\nfn=1,{nodes}\n");
    let left = |lines: &[String]| length - lines.concat().len() - end(lines.len()).len();
    // A line of 14 bytes while there is room, one of 9 if need be, then two of 14 to 18 each.
    while left(&lines) > 41 {
        lines.push("node=path,e,0\n".to_string());
    }
    if left(&lines) > 36 {
        lines.push("node=int\n".to_string());
    }
    for share in [left(&lines) / 2, left(&lines).div_ceil(2)] {
        lines.push(format!("node=path,e,1{}\n", "0".repeat(share - 14)));
    }
    lines.concat() + &end(lines.len())
}

#[test]
fn bytes() {
    for length in 65_500..65_560 {
        let text = of_length(length);
        assert_eq!(text.len(), length);
        let wanted = if length > 65_536 { 1 } else { 0 };
        assert_eq!(answer(&text), (wanted, None));
    }
    assert_eq!(answer(&"\n".repeat(65_537)), (1, None));
    assert_eq!(answer(&"\n".repeat(65_536)), (3, Some(1)));
}

#[test]
fn every_byte_alone_and_behind_a_line() {
    for byte in 0..=255u8 {
        let line = Some(1);
        assert_eq!(read(&[byte]), Err(Refusal { answer: 3, line }));
        let mut text = b"node=bool\nfn=1,0\n".to_vec();
        text.push(byte);
        assert_eq!(read(&text), Err(Refusal { answer: 3, line: Some(3) }));
    }
}
