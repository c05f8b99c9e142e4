//! The variables in scope, the same in a run and in a check.

/// "The scope is sixteen places, each a kind and a value": Shape has judged the kinds. A value is a
/// forest in a run (a tree variable's, of one tree) and a type in a check.
#[derive(Clone)]
pub struct Scope<T>(Vec<T>);

impl<T: Clone> Scope<T> {
    pub fn none() -> Scope<T> {
        Scope(Vec::new())
    }

    /// "parameters come first".
    pub fn of(parameters: impl Iterator<Item = T>) -> Scope<T> {
        Scope(parameters.collect())
    }

    /// "let, snapshot and for add one".
    pub fn with(&self, value: T) -> Scope<T> {
        Scope(self.0.iter().cloned().chain([value]).collect())
    }

    /// "Variables count from 0, outermost first".
    pub fn value(&self, variable: usize) -> &T {
        &self.0[variable]
    }
}
