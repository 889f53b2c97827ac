//! What the derive prints: expected lines are those that the real crate, 1 and 2, is known to give for such formats (it wasn't at
//! hand), and without a format the standard derive's own.

/// The same type under this derive and under the standard one.
macro_rules! twice {
    ($($item:tt)*) => {
        mod ours {
            #[derive(derive_more::Debug)]
            $($item)*
        }
        mod standard {
            #[derive(std::fmt::Debug)]
            $($item)*
        }
    };
}

twice! {
    #[allow(dead_code)]
    pub enum Plain<T, U: Copy = u8>
    where
        T: Clone,
    {
        Nothing,
        Tuple(T, Vec<(T, U)>),
        Named { first: Option<T>, second: std::collections::BTreeMap<u8, U> },
    }
}

macro_rules! plain {
    ($from:ident) => {{
        use $from::Plain::*;
        let named = Named {
            first: Some("one"),
            second: [(1, 2), (3, 4)].into(),
        };
        let all = [Nothing, Tuple("x", vec![("y", 5u8)]), named];
        format!("{all:?} {all:#?} {:08.3?}", all)
    }};
}

#[test]
fn without_a_format() {
    assert_eq!(plain!(ours), plain!(standard));
}

#[derive(derive_more::Debug)]
enum Formatted<R> {
    #[debug("Wrapped({_0:?})")]
    Wrapped(R),
    #[debug("{_0:?}")]
    Alone(R),
    #[debug("{_0}")]
    Shown(u8),
    #[debug("Pair({_0:?}, {_1:?})")]
    Pair(&'static str, Vec<R>),
    #[debug("{from:?} -> {to:?}")]
    Arrow { from: R, to: R },
    #[debug("fixed")]
    Fixed,
}

#[test]
fn with_a_format() {
    use Formatted::*;
    let all = [
        Wrapped(1),
        Alone(2),
        Shown(3),
        Pair("a\"", vec![4]),
        Arrow { from: 5, to: 6 },
        Fixed,
    ];
    let lines = [
        "Wrapped(1)",
        "2",
        "3",
        "Pair(\"a\\\"\", [4])",
        "5 -> 6",
        "fixed",
    ];
    let printed: Vec<_> = all.iter().map(|one| format!("{one:?}")).collect();
    assert_eq!(printed, lines);
}

/// Flags reach a field that is the whole format, and no other.
#[test]
fn flags() {
    use Formatted::*;
    assert_eq!(
        format!("{:03?} {:03?} {:03?}", Wrapped(1), Alone(2), Shown::<u8>(3)),
        "Wrapped(1) 002 003"
    );
    assert_eq!(format!("{:#?}", Alone(Some(1))), "Some(\n    1,\n)");
    assert_eq!(format!("{:#?}", Wrapped(Some(1))), "Wrapped(Some(1))");
}
