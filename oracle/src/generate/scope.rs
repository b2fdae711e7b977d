//! What generated pages may hold.

/// Document 01 alone, or requests of document 02 with it; a wider scope has what a narrower one has. In a narrower
/// scope no number is drawn for what a wider one adds: a seed keeps its pages.
#[derive(Debug, Clone, Copy, PartialEq, Eq, PartialOrd, Ord)]
pub enum Scope {
    /// Texts of ASCII, numbers in the forms 0 to 4.
    Base,
    /// Characters beyond ASCII in texts that are no names (No. 10).
    Utf8,
    /// Numbers that are fractions (No. 5).
    Fractions,
    /// Patterns that are covered by construction, and wrong flags beside them (No. 7).
    Patterns,
}
