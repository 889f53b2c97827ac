//! The order of refusals, and what they leave behind.

use reference::answer::answer;
use reference::case::{Case, Host, Reader};
use reference::memory::Memory;
use reference::node::Node;

/// The nodes in so many lent words and starts, with the one name `x`.
fn host(nodes: &[Node], words: usize, starts: usize) -> Host {
    let empty = Memory {
        words: vec![0; words],
        starts: vec![0; starts],
        ..Memory::default()
    };
    Host {
        table: b"\x01x".to_vec(),
        memory: empty.holding(nodes),
    }
}

/// The answer to a case that was written and read back.
fn line(case: Case) -> String {
    let bytes = case.write();
    let mut reader = Reader(&bytes);
    let read = reader.next().unwrap();
    assert!(reader.next().is_none());
    assert_eq!(read.write(), bytes);
    answer(&read).line
}

fn faulty(mut host: Host, table: bool, memory: bool) -> Host {
    if table {
        host.table.push(0);
    }
    if memory {
        host.memory.nodes += 1;
    }
    host
}

#[test]
fn intern() {
    let arena = || host(&[Node::TyVar(7)], 4, 2);
    let intern = |host, node: &[u32]| line(Case::Intern(host, node.to_vec()));
    let (stored, list) = ([0x3000_0001, 7], [0x4000_0001, 0]);
    assert_eq!(intern(arena(), &stored), "ok 0 1 2 W 30000001 7 S");
    assert_eq!(
        intern(arena(), &list),
        "ok 1 2 4 W 30000001 7 40000001 S 0 2"
    );
    let lambda = [0x5000_0002, 0, 0];
    assert_eq!(intern(arena(), &lambda), "refused 7 W 30000001 7 S");
    let full = || host(&[Node::TyVar(7)], 2, 1);
    assert_eq!(intern(full(), &stored), "ok 0 1 2 W 30000001 7 S");
    assert_eq!(intern(full(), &list), "refused 7 W 30000001 7 S");
    // A faulty node in a faulty arena with a faulty table.
    assert!(intern(faulty(arena(), true, true), &[]).starts_with("refused 1 "));
    assert!(intern(faulty(arena(), false, true), &[]).starts_with("refused 2 "));
    assert!(intern(arena(), &[]).starts_with("refused 3 "));
}

#[test]
fn order_and_display() {
    let arena = || host(&[Node::TyVar(7), Node::Bottom], 4, 2);
    assert_eq!(line(Case::Order(arena(), 0, 1)), "after");
    assert_eq!(line(Case::Order(arena(), 0, 0)), "same");
    assert_eq!(line(Case::Order(arena(), 0, 2)), "refused 6");
    assert_eq!(
        line(Case::Order(faulty(arena(), false, true), 0, 9)),
        "refused 2"
    );
    assert_eq!(line(Case::Display(arena(), 1, 5)), "ok 5 6e65766572");
    assert_eq!(line(Case::Display(arena(), 1, 4)), "refused 9");
    assert_eq!(line(Case::Display(arena(), 2, 0)), "refused 6");
}

#[test]
fn compact() {
    let arena = || host(&[Node::Bottom, Node::TyVar(7)], 3, 2);
    let target = |words, starts| Memory {
        nodes: 5,
        used: 6,
        words: vec![8; words],
        starts: vec![9; starts],
    };
    let compact = |host, root, target| line(Case::Compact(host, root, target));
    assert_eq!(compact(arena(), 1, target(3, 1)), "ok 0 1 2 W 30000001 7 S");
    assert_eq!(compact(arena(), 1, target(1, 1)), "refused 7 0 0 W S");
    assert_eq!(compact(arena(), 1, target(2, 0)), "refused 7 0 0 W S");
    assert_eq!(compact(arena(), 2, target(1, 1)), "refused 6 5 6 W 8 S 9");
    let over = compact(arena(), 2, target(1, 4097));
    assert!(over.starts_with("refused 2 5 6 W 8 S 9 "));
    let table = faulty(arena(), true, false);
    assert!(compact(table, 2, target(1, 4097)).starts_with("refused 1 5 6 "));
}

#[test]
fn equal() {
    let arena = || host(&[Node::Bottom, Node::TyVar(7)], 3, 2);
    let other = || host(&[Node::TyVar(7)], 2, 1);
    let equal = |left, right| line(Case::Equal(left, right));
    assert_eq!(equal((arena(), 1), (other(), 0)), "yes");
    assert_eq!(equal((arena(), 0), (other(), 0)), "no");
    assert_eq!(
        equal((arena(), 2), (faulty(other(), true, true), 0)),
        "refused 1"
    );
    assert_eq!(
        equal((arena(), 2), (faulty(other(), false, true), 0)),
        "refused 2"
    );
    let unsound = faulty(arena(), false, true);
    assert_eq!(
        equal((unsound, 0), (faulty(other(), true, true), 0)),
        "refused 2"
    );
    assert_eq!(equal((arena(), 1), (other(), 1)), "refused 6");
}

/// Faults in the order in which they are found, each the target as lent; names by their texts, and children from the left.
#[test]
fn import() {
    let nodes = [
        Node::TyVar(7),
        Node::Bottom,
        Node::Lambda(1, 0),
        Node::Named(0, 2),
    ];
    let arena = || host(&nodes, 9, 4);
    let under = |table: &[u8], words, starts| Host {
        table: table.to_vec(),
        ..host(&[Node::TyVar(7)], words, starts)
    };
    let import = |from, root, to| line(Case::Import(from, root, to));
    let after = "W 30000001 7 0 50000002 1 0 90000001 8002 S 0 2 3 6";
    let names = b"\x01w\x01x";
    assert_eq!(
        import(arena(), 3, under(names, 8, 4)),
        format!("ok 3 4 8 {after}")
    );
    for (words, starts) in [(7, 4), (8, 3), (2, 1)] {
        let refused = "refused 7 W 30000001 7 S";
        assert_eq!(import(arena(), 3, under(names, words, starts)), refused);
    }
    assert_eq!(
        import(arena(), 0, under(b"", 2, 1)),
        "ok 0 1 2 W 30000001 7 S"
    );
    // Each has the fault of the one before, and one that comes before it.
    let no_room = || under(b"\x01w", 2, 1);
    assert!(import(arena(), 3, no_room()).starts_with("refused 12 "));
    assert!(import(arena(), 4, no_room()).starts_with("refused 6 "));
    let unsound = || faulty(no_room(), false, true);
    assert!(import(arena(), 4, unsound()).starts_with("refused 2 "));
    let faulty_target = || faulty(no_room(), true, true);
    assert!(import(arena(), 4, faulty_target()).starts_with("refused 1 "));
    let unsound_source = faulty(arena(), false, true);
    assert!(import(unsound_source, 4, faulty_target()).starts_with("refused 2 "));
    let unsound_target = faulty(no_room(), false, true);
    let faulty_source = faulty(arena(), true, true);
    assert!(import(faulty_source, 4, unsound_target).starts_with("refused 1 "));
}

#[test]
fn find_name() {
    let find = |table: &[u8], text: &[u8]| line(Case::FindName(table.to_vec(), text.to_vec()));
    assert_eq!(find(b"\x01b\x02bb", b"bb"), "found 1");
    assert_eq!(find(b"\x01b\x02bb", b"ba"), "absent 1");
    assert_eq!(find(b"\x01b\x02bb", &[b'b'; 300]), "absent 2");
    assert_eq!(find(b"", b""), "absent 0");
    assert_eq!(find(b"\x02b", b"b"), "refused 1");
}

/// A list's 65th member comes before a later member's new node, but an earlier one's comes first.
#[test]
fn set_ops() {
    for (new_first, expected) in [(false, "refused 8 "), (true, "refused 7 ")] {
        let mut nodes: Vec<Node> = (0..65).map(Node::TyVar).collect();
        nodes.push(Node::Union((0..40).collect()));
        nodes.push(Node::Union((40..65).collect()));
        nodes.push(Node::Union(vec![1, 0]));
        nodes.push(Node::List(67));
        let members = if new_first {
            vec![68, 65, 66]
        } else {
            vec![65, 66, 68]
        };
        nodes.push(Node::Union(members));
        let words = nodes.iter().map(Node::size).sum();
        let host = host(&nodes, words, nodes.len());
        assert!(line(Case::OnType(17, host, 69)).starts_with(expected));
    }
}

#[test]
fn questions() {
    let nodes = [Node::TyVar(7), Node::Lambda(0, 0), Node::Named(0, 1)];
    let ask = |op| line(Case::OnType(op, host(&nodes, 20, 8), 2));
    assert_eq!(ask(9), "ok 1 7");
    assert!(ask(10).starts_with("ok 5 6 14 "));
    assert_eq!(ask(11), "yes");
    assert!(ask(12).starts_with("ok 5 6 14 "));
    assert_eq!(ask(13), "yes");
    assert_eq!(ask(14), "yes");
    assert_eq!(ask(15), "no");
    assert_eq!(ask(16), "ok 1");
    assert!(ask(17).starts_with("ok 2 3 7 "));
}

/// After 11 the bytes are as they were; a line that is refused is one of a sheet that is converted.
#[test]
fn convert() {
    let bytes = |words: &[u32]| words.iter().flat_map(|w| w.to_be_bytes()).collect();
    let sheet = |opening: &[u8], words: &[u32]| {
        let words: Vec<u8> = bytes(words);
        Case::Convert([opening, &words].concat())
    };
    let named = |word| {
        let words = [0x2000_0001, 2, 0x9000_0001, word];
        line(sheet(b"\0\x02\0\x02\0\x01\x01p\x01q", &words))
    };
    let opening = "000200020001017001712000000100000002";
    assert_eq!(
        named(0x0080_0000),
        format!("ok {opening}9000000100008000 1 2 q")
    );
    assert_eq!(
        named(0x0000_8000),
        format!("refused 11 {opening}9000000100008000")
    );
    assert_eq!(line(Case::Convert(vec![])), "refused 11 ");
    // 65 variables in two unions of one, each with both signs.
    let mut words: Vec<u32> = (0..65).flat_map(|var| [0x3000_0001, var]).collect();
    for (first, end) in [(0, 40), (40, 65), (65, 67)] {
        words.push(0x7000_0000 + end - first);
        words.extend(first..end);
    }
    words.extend([0x5000_0002, 67, 67]);
    let refused = line(sheet(&[0, 0, 0, 69, 0, 68], &words));
    assert!(refused.starts_with("ok ") && refused.ends_with(" refused 8"));
}

/// Each has the fault of the one before, and one that comes before it.
#[test]
fn fits() {
    let nodes = [Node::TyVar(7), Node::Primitive(2), Node::List(0)];
    let arena = || host(&nodes, 8, 4);
    let fits = |host, root, fix: &[u32]| line(Case::Fits(host, root, fix.to_vec()));
    let (int, list) = ([0x2000_0000], [0x6000_0000]);
    assert_eq!(fits(arena(), 1, &int), "yes");
    assert_eq!(fits(arena(), 1, &list), "no");
    assert_eq!(fits(arena(), 0, &int), "refused 14");
    assert_eq!(fits(arena(), 2, &int), "refused 14");
    assert_eq!(fits(arena(), 2, &[]), "refused 13");
    assert_eq!(fits(arena(), 1, &[0x6000_0001, 0]), "refused 13");
    assert_eq!(fits(arena(), 3, &[]), "refused 6");
    let unsound = faulty(arena(), false, true);
    assert_eq!(fits(unsound, 9, &[]), "refused 2");
    let both = faulty(arena(), true, true);
    assert_eq!(fits(both, 9, &[]), "refused 1");
    // 65,537 words: more than the other cases can say.
    let long = [vec![int[0], 0x6000_ffff], vec![0; 65_535]].concat();
    assert_eq!(fits(arena(), 1, &long), "no");
}
