//! Why a call is refused.

/// Why a call is refused: the numbers of include/zakdomp.h.
#[derive(Clone, Copy, Debug, Eq, Hash, PartialEq)]
#[non_exhaustive]
pub enum Refusal {
    Side,
    Length,
    Parameter,
    Coordinate,
    MergeRadius,
    Kind,
    MapShort,
    LevelsShort,
    ListShort,
    Pgm,
    Maxval,
    Outside,
    Crossed,
    Changed,
    Beyond,
    Largest,
    StreamShort,
    Late,
    /// A number that this crate does not know.
    Other(u8),
}

impl Refusal {
    pub(crate) fn of(number: u8) -> Self {
        match number {
            1 => Self::Side,
            2 => Self::Length,
            3 => Self::Parameter,
            4 => Self::Coordinate,
            5 => Self::MergeRadius,
            6 => Self::Kind,
            8 => Self::MapShort,
            9 => Self::LevelsShort,
            10 => Self::ListShort,
            12 => Self::Pgm,
            13 => Self::Maxval,
            14 => Self::Outside,
            15 => Self::Crossed,
            16 => Self::Changed,
            17 => Self::Beyond,
            18 => Self::Largest,
            19 => Self::StreamShort,
            20 => Self::Late,
            _ => Self::Other(number),
        }
    }

    /// Its number.
    #[must_use]
    pub fn number(self) -> u8 {
        match self {
            Self::Side => 1,
            Self::Length => 2,
            Self::Parameter => 3,
            Self::Coordinate => 4,
            Self::MergeRadius => 5,
            Self::Kind => 6,
            Self::MapShort => 8,
            Self::LevelsShort => 9,
            Self::ListShort => 10,
            Self::Pgm => 12,
            Self::Maxval => 13,
            Self::Outside => 14,
            Self::Crossed => 15,
            Self::Changed => 16,
            Self::Beyond => 17,
            Self::Largest => 18,
            Self::StreamShort => 19,
            Self::Late => 20,
            Self::Other(number) => number,
        }
    }
}

impl std::fmt::Display for Refusal {
    fn fmt(&self, f: &mut std::fmt::Formatter<'_>) -> std::fmt::Result {
        let text = match self {
            Self::Side => "a side is above 4096, or above 96 in a stream",
            Self::Length => "the number of pixels or of cells is not width times height",
            Self::Parameter => {
                "the ring is not 5 or 10, a window, centroid or search radius is out of range, \
                 or a value too wide for a stream"
            }
            Self::Coordinate => "a coordinate is out of range",
            Self::MergeRadius => "the merge radius is not within 1/64 to 4096",
            Self::Kind => "there is no such kind of item",
            Self::MapShort => "the map buffer is too short",
            Self::LevelsShort => "the level buffer is too short",
            Self::ListShort => "there are more corners than places for them",
            Self::Pgm => "the photograph is no whole binary PGM",
            Self::Maxval => "the maxval of the photograph is not 255",
            Self::Outside => "the place is outside the image",
            Self::Crossed => "a pixel's low value is above its high one",
            Self::Changed => "the change number differs from the list's",
            Self::Beyond => "the place is beyond the list",
            Self::Largest => "the list's change number is the largest there is",
            Self::StreamShort => "the stream buffer is too short",
            Self::Late => "a start or a time is above 2^40",
            Self::Other(_) => "refused",
        };
        write!(f, "{text} (number {})", self.number())
    }
}

impl std::error::Error for Refusal {}
