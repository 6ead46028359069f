//! What the original's crate root and its two outside crates supply.

// `replace_with` is an outside crate of which one function is named.
extern crate self as replace_with;

/// Replaces a value by what a function makes of it, and returns its answer.
pub fn replace_with_or_default_and_return<T: Default, U>(
    place: &mut T,
    change: impl FnOnce(T) -> (U, T),
) -> U {
    let (answer, value) = change(core::mem::take(place));
    *place = value;
    answer
}

// `static_assertions` tests when compiling only; nothing runs from it.
macro_rules! assert_impl_all {
    ($($tokens:tt)*) => {};
}

pub mod bundle;
pub mod contact;
pub mod contact_manager;
pub mod errors;
pub mod parsing;
pub mod poly;
pub mod types;

/// The plan parsers are not built: the managers reach them by this name only.
pub mod contact_plan {
    pub mod from_asabr_lexer {
        pub struct ASABRPlanInfoKind;
    }
}
