//! The frame pass (RULES 9) over lists: levels, maps, peaks, centroids, boxes, merge.
use crate::centroid::centroids;
use crate::image::{Area, Image};
use crate::params::Params;
use crate::refusal::{refuse_if, Refusal, LIST_SHORT};
use crate::response::map_of;
use crate::search_box::{self, Boxes};
use crate::{merge, peaks};
use box_image_pyramid::PyramidLevel;
use chess_corners_core::{Corner, ResponseMap};

/// A box of an image whose map is looked at.
#[derive(Clone, Copy, Debug)]
pub struct View<'a> {
    pub image: Image<'a>,
    pub area: Area,
}

impl View<'_> {
    pub fn map(&self, ring: u32) -> ResponseMap {
        map_of(self.image, ring, self.area)
    }
}

/// The steps that the exact pass and the wrong roads exchange.
#[derive(Clone, Copy, Debug)]
pub struct Steps {
    pub peaks: fn(&View, &ResponseMap, &Params) -> Vec<Corner>,
    pub boxes: fn(Image, f32, &Params, &[Corner]) -> Boxes,
    pub merge: fn(&[Corner], f32) -> Vec<Corner>,
}

/// The steps of RULES 9.
pub const STEPS: Steps = Steps {
    peaks: |_, map, params| peaks::peaks_of(map, params),
    boxes: search_box::boxes_of,
    merge: merge::merged,
};

/// How many seeds and corners have a place.
#[derive(Clone, Copy, Debug)]
pub struct Places {
    pub seeds: usize,
    pub corners: usize,
}

/// Buffers that are never short (RULES 10.2).
pub const UNLIMITED: Places = Places { seeds: usize::MAX, corners: usize::MAX };

/// What a pass finds.
#[derive(Clone, Debug, Default)]
pub struct Lists<'a> {
    pub seeds: Vec<Corner>,
    /// The corners before merging.
    pub found: Vec<Corner>,
    pub corners: Vec<Corner>,
    /// The maps that were looked at, in order.
    pub views: Vec<View<'a>>,
    /// How many of them, at the front, are searched for seeds alone: one with several levels.
    pub for_seeds: usize,
}

impl Lists<'_> {
    /// The ties of the peaks behind `found` (RULES 23), counted anew in the maps that they were found in.
    pub fn ties(&self, params: &Params, steps: &Steps) -> u64 {
        let of = |view: &View| {
            let map = view.map(params.ring);
            (steps.peaks)(view, &map, params)
                .iter()
                .map(|c| peaks::ties_at(&map, params.window, c))
                .sum::<u64>()
        };
        self.views[self.for_seeds..].iter().map(of).sum()
    }

    /// The neighbours of the seeds and of the merged corners (RULES 24), counted anew likewise: no centroid drops a peak of a frame.
    pub fn neighbours(&self, params: &Params, steps: &Steps) -> (Vec<u32>, Vec<u32>) {
        let of = |view: &View| {
            let map = view.map(params.ring);
            peaks::neighbours_of(&map, params.window, &(steps.peaks)(view, &map, params))
        };
        let (for_seeds, for_corners) = self.views.split_at(self.for_seeds);
        let seeds: Vec<u32> = for_seeds.iter().flat_map(of).collect();
        let found: Vec<u32> = for_corners.iter().flat_map(of).collect();
        assert_eq!((seeds.len(), found.len()), (self.seeds.len(), self.found.len()));
        (seeds, merge::merged_neighbours(&self.found, &found, params.merge, &self.corners))
    }
}

/// The localized peaks of one map, or refusal 10 where the peaks have no place.
fn list_of(view: &View, params: &Params, places: usize, steps: &Steps) -> Result<Vec<Corner>, Refusal> {
    let map = view.map(params.ring);
    let list = (steps.peaks)(view, &map, params);
    refuse_if(list.len() > places, LIST_SHORT)?;
    Ok(centroids(list, &map, params.centroid))
}

fn whole<'a>(level: &PyramidLevel<'a>) -> View<'a> {
    let image = Image { pixels: level.img.data, width: level.img.width, height: level.img.height };
    View { image, area: image.whole() }
}

/// The pass over the levels of a checked frame; only refusal 10 can arise.
pub fn pass<'a>(
    levels: &[PyramidLevel<'a>],
    params: &Params,
    places: Places,
    steps: &Steps,
) -> Result<Lists<'a>, Refusal> {
    let (Some(base), Some(last)) = (levels.first(), levels.last()) else {
        return Ok(Lists::default());
    };
    let mut lists = Lists { views: vec![whole(last)], ..Lists::default() };
    if levels.len() == 1 {
        lists.found = list_of(&whole(base), params, places.corners, steps)?;
    } else {
        lists.for_seeds = 1;
        lists.seeds = list_of(&whole(last), params, places.seeds, steps)?;
        refine_seeds(whole(base).image, last.scale, params, places.corners, steps, &mut lists)?;
    }
    lists.corners = (steps.merge)(&lists.found, params.merge);
    Ok(lists)
}

/// Each seed's box, in order, gives a patch map, peaks and centroids, moved by the box's corner.
fn refine_seeds<'a>(
    base: Image<'a>,
    scale: f32,
    params: &Params,
    places: usize,
    steps: &Steps,
    lists: &mut Lists<'a>,
) -> Result<(), Refusal> {
    let boxes = (steps.boxes)(base, scale, params, &lists.seeds);
    for area in boxes.into_iter().flatten() {
        let view = View { image: base, area };
        let list = list_of(&view, params, places - lists.found.len(), steps)?;
        lists.views.push(view);
        lists.found.extend(list.into_iter().map(|mut corner| {
            corner.x += area.x0 as f32;
            corner.y += area.y0 as f32;
            corner
        }));
    }
    Ok(())
}
