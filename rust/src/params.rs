//! What is looked for.

/// What is looked for.
#[derive(Clone, Copy, Debug, PartialEq)]
pub struct Params {
    /// The ring's radius, 5 or 10.
    pub ring: u32,
    /// A peak's response is above it; NaN and negative numbers count as 0.
    pub threshold: f32,
    /// No cell this near, 0 to 16, has a larger response than a peak.
    pub window: u32,
    /// At least so many cells of the window, the peak not counted, have a response above 0.
    pub least_neighbours: u32,
    /// A peak moves to the centre of mass of the positive cells this near, 0 to 16.
    pub centroid_radius: u32,
    /// 1/64 to 4096: corners are merged as `zakdomp_merge` of include/zakdomp.h does; 0, negative or not finite: all
    /// are kept.
    pub merge_radius: f32,
    /// At most so many levels are built, the image included; with more than one, seeds are found on the last. 0: no
    /// corners.
    pub levels: u32,
    /// No level has a side below it; an image that has one has no corners.
    pub minimum_side: usize,
    /// How far about a seed, 0 to 255, in pixels of its level; in the image never less than ring + window + centroid
    /// radius + 2.
    pub search_radius: u32,
}

impl Default for Params {
    /// The original's defaults on one level; its smallest side of a level is 128, here it is 1.
    fn default() -> Self {
        Self {
            ring: 5,
            threshold: 0.0,
            window: 2,
            least_neighbours: 2,
            centroid_radius: 2,
            merge_radius: 3.0,
            levels: 1,
            minimum_side: 1,
            search_radius: 3,
        }
    }
}
