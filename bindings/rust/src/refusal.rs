//! Why a call refuses.

use std::error::Error;
use std::fmt;

/// Declares the reasons: each with its number and its words, where `{}` stands for the detail.
macro_rules! reasons {
    ($($(#[$doc:meta])* $name:ident = $number:literal, $words:literal;)*) => {
        /// The reasons, in the order in which a call on a list tests them; it gives the first that holds. A reader takes
        /// its file from front to back, [`read_vox`](crate::read_vox) with 13, 14, 2, 3, 15 in this order on one chunk.
        #[derive(Clone, Copy, Debug, PartialEq, Eq, Hash, PartialOrd, Ord)]
        pub enum Reason {
            $($(#[$doc])* $name = $number,)*
        }

        impl Reason {
            const ALL: &'static [Reason] = &[$(Reason::$name),*];

            fn words(self) -> &'static str {
                match self {
                    $(Reason::$name => $words,)*
                }
            }
        }
    };
}

reasons! {
    /// 1: the coordinates' count is not a multiple of three.
    BrokenShot = 1, "the coordinates' count is not a multiple of three";
    /// 2: more than 4,096 shots. A reader's detail is the offset of the map of the first shot too many, or of XYZI.
    TooManyShots = 2, "there are more than 4,096 shots";
    /// 3: the coordinate slice lacks three places for the shot that begins, or for each voxel; the offset of its map,
    /// or of XYZI.
    NoPlace = 3, "the coordinate slice has too few places for the shots, at byte {}";
    /// 4: a map has a bit that has no meaning; the offset of the map.
    UnknownBit = 4, "a bit without meaning stands in the map at byte {}";
    /// 5: the file ends inside a record or is empty; the offset of the record's map.
    CutShort = 5, "the file ends within the record at byte {}";
    /// 6: the field side is outside 1 to 1,024.
    FieldRange = 6, "the field side is outside 1 to 1,024";
    /// 7: the shot edge is outside 1 to the field side.
    EdgeRange = 7, "the shot edge is outside 1 to the field side";
    /// 8: the grid size is outside 1 to 64 or does not divide the field side.
    GridRange = 8, "the grid size is outside 1 to 64 or does not divide the field side";
    /// 9: a shot leaves the field; the first such shot, from 0.
    OutsideField = 9, "a shot leaves the field, the first one being shot {}";
    /// 10: the work slice is too short; the entries needed.
    ShortWork = 10, "the work slice is too short, the entries needed being {}";
    /// 11: the listing is too short; the corners.
    ShortListing = 11, "the listing is too short, the corners being {}";
    /// 12: the byte buffer is shorter than the file; the bytes needed.
    ShortFile = 12, "the byte buffer is too short, the bytes needed being {}";
    /// 13: no VOX mark of version 150, or no chunk or another where one is required; the offset of the mark or chunk.
    NotVox = 13, "there is no VOX mark of version 150, or not the chunk required, at byte {}";
    /// 14: a chunk is cut short, or a size of it overruns or does not match; the chunk's offset.
    BrokenChunk = 14, "a chunk is cut short, or a size of it does not match, at byte {}";
    /// 15: a side is outside 1 to 256, the offset of SIZE; or a voxel is outside SIZE or has colour 0, its offset.
    VoxelRange = 15, "a side is outside 1 to 256, or a voxel is outside or has colour 0, at byte {}";
    /// 16: the credits have fewer places than there are shots; the shots.
    ShortCredits = 16, "the credits are too short, the shots being {}";
    /// 17: a field says what its absence would mean; the offset of the record's map.
    NeedlessField = 17, "a field says what its absence would mean, in the record at byte {}";
    /// 18: a price table has more than 64 bands, a faulty one, or no top; 64, the first faulty band, or the bands.
    InvalidTable = 18, "a price table has a faulty band, no top, or more than 64 bands, the detail being {}";
}

impl Reason {
    /// The refusal's number, from 1 on.
    pub fn number(self) -> u64 {
        self as u64
    }
}

/// A refusal: the reason and its detail.
#[derive(Clone, Copy, Debug, PartialEq, Eq, Hash)]
pub struct Refusal {
    /// Why the call refuses.
    pub reason: Reason,
    /// What goes with the reason; 0 where nothing does.
    pub detail: u64,
}

impl Refusal {
    /// The refusal that an answer's first two numbers hold; none for 0.
    pub(crate) fn of(number: u64, detail: u64) -> Option<Refusal> {
        let reason = Reason::ALL.iter().copied().find(|reason| reason.number() == number);
        assert!(reason.is_some() || number == 0, "the library gave the unknown refusal {number}");
        reason.map(|reason| Refusal { reason, detail })
    }
}

impl fmt::Display for Refusal {
    fn fmt(&self, f: &mut fmt::Formatter<'_>) -> fmt::Result {
        let words = self.reason.words();
        match words.split_once("{}") {
            Some((before, after)) => write!(f, "{before}{}{after}", self.detail),
            None => f.write_str(words),
        }
    }
}

impl Error for Refusal {}
