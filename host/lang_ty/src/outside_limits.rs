//! How often plain Rust answered, since the library would have refused: in all arenas of the process, since it began.

use std::sync::atomic::{AtomicU64, Ordering};

macro_rules! counted {
    ($($call:ident),+) => {
        /// For each call that the library could have answered: how often plain Rust did.
        #[derive(Debug, Clone, Copy, Default, PartialEq, Eq)]
        pub struct Counts {
            $(pub $call: u64),+
        }

        struct Counters {
            $($call: AtomicU64),+
        }

        static COUNTERS: Counters = Counters {
            $($call: AtomicU64::new(0)),+
        };

        impl Counts {
            /// All calls together.
            pub fn total(&self) -> u64 {
                [$(self.$call),+].iter().sum()
            }
        }

        pub fn counts() -> Counts {
            Counts {
                $($call: COUNTERS.$call.load(Ordering::Relaxed)),+
            }
        }

        pub(crate) fn count(call: &str) {
            let counter = match call {
                $(stringify!($call) => &COUNTERS.$call,)+
                _ => unreachable!("no call is named {call}"),
            };
            counter.fetch_add(1, Ordering::Relaxed);
        }
    };
}

counted!(
    compact,
    contains_bare_tyvar,
    display,
    free_type_vars,
    has_shared_tyvar_across_lambda_params,
    has_type_vars,
    needs_var_normalization,
    normalize_replacing_unknown,
    normalize_set_ops,
    normalize_vars,
    simplify,
    structurally_eq,
    unwrap_named
);
