//! Of several passes the quietest counts: that in which all times together are least. A machine that does other work for some seconds then
//! changes no figure, and all times of a figure come from the same moment.

/// How many passes are made over all that is measured.
pub const PASSES: usize = 20;

/// The times of the quietest pass so far, in nanoseconds.
#[derive(Clone, Default)]
pub struct Quietest(Vec<f64>);

impl Quietest {
    /// Takes the times of one more pass.
    pub fn offer(&mut self, times: Vec<f64>) {
        if self.0.is_empty() || times.iter().sum::<f64>() < self.0.iter().sum() {
            self.0 = times;
        }
    }

    /// The times.
    pub fn times(&self) -> &[f64] {
        &self.0
    }
}
