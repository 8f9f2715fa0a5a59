//! Corners, one by one and in four slices.

/// A corner, in pixels, the response at its peak, and how many other cells of the peak's window are above 0.
#[derive(Clone, Copy, Debug, Default, PartialEq)]
pub struct Corner {
    pub x: f32,
    pub y: f32,
    pub strength: f32,
    pub neighbours: u32,
}

/// Corners in four slices, as the library takes them.
#[derive(Clone, Debug, Default, PartialEq)]
pub(crate) struct Lists {
    pub(crate) xs: Vec<f32>,
    pub(crate) ys: Vec<f32>,
    pub(crate) strengths: Vec<f32>,
    pub(crate) neighbours: Vec<u32>,
}

impl Lists {
    /// Lists with just the places of some corners, which are in them.
    pub(crate) fn of(corners: &[Corner]) -> Self {
        Self {
            xs: corners.iter().map(|c| c.x).collect(),
            ys: corners.iter().map(|c| c.y).collect(),
            strengths: corners.iter().map(|c| c.strength).collect(),
            neighbours: corners.iter().map(|c| c.neighbours).collect(),
        }
    }

    pub(crate) fn resize(&mut self, places: usize) {
        for list in [&mut self.xs, &mut self.ys, &mut self.strengths] {
            list.resize(places, 0.0);
        }
        self.neighbours.resize(places, 0);
    }

    /// The first corners.
    pub(crate) fn first(&self, count: usize) -> Vec<Corner> {
        let corner = |i: usize| Corner {
            x: self.xs[i],
            y: self.ys[i],
            strength: self.strengths[i],
            neighbours: self.neighbours[i],
        };
        (0..count).map(corner).collect()
    }
}
