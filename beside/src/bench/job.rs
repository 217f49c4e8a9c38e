//! What is measured: one job that both programs do.

pub trait Job {
    /// How many units there are: bytes, pixels, calls.
    fn units(&self) -> usize;
    /// Whether all answers, and all that is lent, are alike; if not, where they differ.
    fn compare(&mut self) -> Result<(), String>;
    fn run_archive(&mut self);
    /// Calls the plain program through a pointer that the compiler cannot see through: it stands behind a call, as the archive does.
    fn run_plain(&mut self);
}

/// A job at half its size and at its full size.
pub struct Measured {
    pub name: &'static str,
    pub size: &'static str,
    pub unit: &'static str,
    pub half: Box<dyn Job>,
    pub full: Box<dyn Job>,
}

pub fn alike<T: PartialEq + std::fmt::Debug>(
    archive: T,
    plain: T,
    place: impl std::fmt::Display,
) -> Result<(), String> {
    if archive == plain {
        return Ok(());
    }
    Err(format!(
        "{place}: the archive has {archive:?}, the plain program {plain:?}"
    ))
}
