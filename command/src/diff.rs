//! A unified diff of two texts, by lines.

use similar::TextDiff;

/// Empty if the texts are the same.
pub fn unified(old: &str, new: &str) -> String {
    TextDiff::from_lines(old, new).unified_diff().context_radius(3).header("before", "after").to_string()
}
