//! A chart of whose objects only the kinds matter.

use dresserduck::Chart;

/// The chart's slices.
pub struct Lists {
    pub kind: Vec<u8>,
    pub ones: Vec<f64>,
}

impl Lists {
    pub fn of(kind: &[u8]) -> Self {
        Lists {
            kind: kind.to_vec(),
            ones: vec![1.0; kind.len()],
        }
    }

    pub fn chart(&self) -> Chart<'_> {
        Chart::new(&self.kind, &self.ones, &self.ones, &self.ones)
    }
}
