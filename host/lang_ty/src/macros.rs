/// Stores a type that is written down, in an arena given first (an expression that is a `&mut TypeArena` or can be called
/// like one), and gives its number. Parts are stored from left to right, each before what it is a part of.
#[macro_export]
macro_rules! arc_ty {
    (@set $arena:expr, $open:literal, $($name:literal : $part:tt),*) => {{
        let fields = [$(($name, $crate::arc_ty!($arena, $part))),*];
        let set = $crate::AttrSetTy::<$crate::TyRef>::from_internal(fields, $open);
        $arena.intern($crate::OutputTy::AttrSet(set))
    }};
    ($arena:expr, Bottom) => { $arena.intern($crate::OutputTy::Bottom) };
    ($arena:expr, Top) => { $arena.intern($crate::OutputTy::Top) };
    // Null, Bool, Int, Float, String, Path, Uri, Number.
    ($arena:expr, $primitive:ident) => {
        $arena.intern($crate::OutputTy::Primitive($crate::PrimitiveTy::$primitive))
    };
    // A variable: # 3 or TyVar(3).
    ($arena:expr, # $index:expr) => { $arena.intern($crate::OutputTy::TyVar($index)) };
    ($arena:expr, TyVar($index:expr)) => { $arena.intern($crate::OutputTy::TyVar($index)) };
    ($arena:expr, ($($part:tt)*)) => { $crate::arc_ty!($arena, $($part)*) };
    ($arena:expr, [$($part:tt)*]) => {{
        let element = $crate::arc_ty!($arena, $($part)*);
        $arena.intern($crate::OutputTy::List(element))
    }};
    // A set, closed or, with `; ...` at its end, open.
    ($arena:expr, { $($name:literal : $part:tt),* $(,)? }) => {
        $crate::arc_ty!(@set $arena, false, $($name : $part),*)
    };
    ($arena:expr, { $($name:literal : $part:tt),* $(,)?; ... }) => {
        $crate::arc_ty!(@set $arena, true, $($name : $part),*)
    };
    ($arena:expr, union!($($part:tt),+ $(,)?)) => {{
        let members = vec![$($crate::arc_ty!($arena, $part)),+];
        $arena.intern($crate::OutputTy::Union(members))
    }};
    ($arena:expr, isect!($($part:tt),+ $(,)?)) => {{
        let members = vec![$($crate::arc_ty!($arena, $part)),+];
        $arena.intern($crate::OutputTy::Intersection(members))
    }};
    ($arena:expr, named!($name:expr, $part:tt)) => {{
        let named = $crate::arc_ty!($arena, $part);
        $arena.intern($crate::OutputTy::Named($crate::smol_str::SmolStr::new($name), named))
    }};
    ($arena:expr, neg!($($part:tt)*)) => {{
        let negated = $crate::arc_ty!($arena, $($part)*);
        $arena.intern($crate::OutputTy::Neg(negated))
    }};
    ($arena:expr, $part:tt -> $($rest:tt)*) => {{
        let param = $crate::arc_ty!($arena, $part);
        let body = $crate::arc_ty!($arena, $($rest)*);
        $arena.intern($crate::OutputTy::Lambda { param, body })
    }};
}
