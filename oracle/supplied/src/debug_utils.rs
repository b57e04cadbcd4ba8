//! Only traces call it, and those are off.

pub fn display_iter<T: core::fmt::Debug>(items: T, _separator: &str) -> String {
    format!("{items:?}")
}
