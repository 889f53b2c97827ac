//! How often plain Rust answers in the client's own runs: never where types are tame, and for every call where they are wild.

use lang_ty::outside_limits::{counts, Counts};
use lang_ty::stack::with_stack;

use crate::random::Random;
use crate::types::Kind;
use crate::{edges, report};

fn all(kind: Kind) {
    let mut out = String::new();
    edges::report(&mut out, kind);
    for case in 0..120 {
        let mut random = Random::new(6, kind as u8, case);
        with_stack(|| report::report(&mut out, &mut random, kind));
    }
}

/// One test, since the counts are those of the whole process.
#[test]
fn counts_of_tame_and_wild_types() {
    all(Kind::Tame);
    assert_eq!(counts(), Counts::default());
    all(Kind::Wild);
    let shown = format!("{:?}", counts());
    assert!(
        !shown.contains(": 0"),
        "some call was never beyond a limit: {shown}"
    );
    assert!(counts().total() > 500, "{shown}");
}
