//! One call, with all its arguments.

use crate::lent::{Lend, List, Source};

/// A C entry.
#[derive(Clone, Copy, Debug, PartialEq)]
pub enum Call {
    Constrain,
    AdjustPri,
    Damping,
    LumaDamping,
    ChromaDamping,
    Direction,
    FilterBlock,
    TrialLuma,
    TrialChroma,
    Distance,
    Squares,
    DirectionPass,
    TryLuma,
    TryChroma,
    MeasureLuma,
    MeasureChroma,
    ApplyLuma,
    ApplyChroma,
}

use Call::*;

/// Every entry that can reject a call, with its name after `quern_`.
pub const CALLS: [(Call, &str); 18] = [
    (Constrain, "constrain"),
    (AdjustPri, "adjust_pri"),
    (Damping, "damping"),
    (LumaDamping, "luma_damping"),
    (ChromaDamping, "chroma_damping"),
    (Direction, "direction"),
    (FilterBlock, "filter_block"),
    (TrialLuma, "trial_luma"),
    (TrialChroma, "trial_chroma"),
    (Distance, "distance"),
    (Squares, "squares"),
    (DirectionPass, "direction_pass"),
    (TryLuma, "try_luma"),
    (TryChroma, "try_chroma"),
    (MeasureLuma, "measure_luma"),
    (MeasureChroma, "measure_chroma"),
    (ApplyLuma, "apply_luma"),
    (ApplyChroma, "apply_chroma"),
];

/// A list that may be passed to a call; one number is a list of one element.
#[derive(Clone, Copy, Debug, PartialEq)]
pub enum Slot {
    Plane,
    Other,
    Dst,
    Totals,
    Skip,
    Dirs,
    Vars,
    Pris,
    Secs,
}

impl Call {
    pub fn name(self) -> &'static str {
        CALLS[self as usize].1
    }

    /// A call on a whole picture.
    pub fn is_frame(self) -> bool {
        self as usize >= DirectionPass as usize
    }

    /// A frame call in chroma, which has subsampling flags and no variances.
    pub fn is_chroma_frame(self) -> bool {
        matches!(self, TryChroma | MeasureChroma | ApplyChroma)
    }

    /// What it may write.
    pub fn written(self) -> &'static [Slot] {
        match self {
            Constrain | AdjustPri => &[Slot::Vars],
            Damping | LumaDamping | ChromaDamping => &[Slot::Dirs],
            Direction | DirectionPass => &[Slot::Dirs, Slot::Vars],
            FilterBlock | TrialLuma | TrialChroma | ApplyLuma | ApplyChroma => &[Slot::Dst],
            Distance | Squares | TryLuma | TryChroma => &[Slot::Totals],
            MeasureLuma | MeasureChroma => &[Slot::Totals, Slot::Dst],
        }
    }

    /// What it may only read.
    pub fn shared(self) -> &'static [Slot] {
        use Slot::{Dirs, Other, Plane, Pris, Secs, Skip, Vars};
        match self {
            Constrain | AdjustPri | Damping | LumaDamping | ChromaDamping => &[],
            Direction | FilterBlock | TrialLuma | TrialChroma | DirectionPass => &[Plane],
            Distance | Squares => &[Plane, Other],
            TryLuma | MeasureLuma => &[Plane, Other, Skip, Dirs, Vars],
            TryChroma | MeasureChroma => &[Plane, Other, Skip, Dirs],
            ApplyLuma => &[Plane, Skip, Dirs, Vars, Pris, Secs],
            ApplyChroma => &[Plane, Skip, Dirs, Pris, Secs],
        }
    }

    /// All lists that are passed to it.
    pub fn lent(self) -> impl Iterator<Item = Slot> {
        self.written().iter().chain(self.shared()).copied()
    }

    /// Those that are passed with a length; the others are single numbers.
    pub fn slices(self) -> impl Iterator<Item = Slot> {
        let has_length = move |slot: &Slot| {
            self.is_frame() || matches!(slot, Slot::Plane | Slot::Other | Slot::Dst)
        };
        self.lent().filter(has_length)
    }

    /// The question that examines what a list holds; 10, none, where it is only written.
    pub fn examined(self, slot: Slot) -> u32 {
        match slot {
            _ if self.written().contains(&slot) => 10,
            Slot::Plane | Slot::Other => 9,
            _ => 8,
        }
    }
}

/// Every number of every call, in the entries' names; a call is passed its own.
#[derive(Debug, Default)]
pub struct Numbers {
    pub difference: i32,
    pub strength: u32,
    pub variance: u32,
    pub depth: u8,
    pub width: usize,
    pub height: usize,
    pub sx: u8,
    pub sy: u8,
    pub x: usize,
    pub y: usize,
    pub bw: usize,
    pub bh: usize,
    pub y0: usize,
    pub pri: u32,
    pub sec: u32,
    pub dir: u8,
    pub damping: u8,
    pub unstated: u8,
    /// The quality index.
    pub quality: u32,
    pub visible_width: usize,
    pub visible_height: usize,
    pub primary: u8,
    pub secondary: u8,
}

#[derive(Debug)]
pub struct Case {
    pub call: Call,
    pub n: Numbers,
    /// The plane, the snapshot, or a distance's original.
    pub plane: List<u16>,
    /// The original of a frame call, or a distance's other plane.
    pub other: List<u16>,
    /// The destination, the trial blocks or the scratch.
    pub dst: List<u16>,
    /// Totals, or a distance.
    pub totals: List<i64>,
    pub skip: List<u8>,
    /// Directions, or a damping that is written.
    pub dirs: List<u8>,
    /// Variances, or a difference or strength that is written.
    pub vars: List<u32>,
    pub pris: List<u8>,
    pub secs: List<u8>,
}

impl Case {
    pub fn new(source: impl Fn() -> Source) -> Self {
        Case {
            call: Constrain,
            n: Numbers::default(),
            plane: List::new(source()),
            other: List::new(source()),
            dst: List::new(source()),
            totals: List::new(source()),
            skip: List::new(source()),
            dirs: List::new(source()),
            vars: List::new(source()),
            pris: List::new(source()),
            secs: List::new(source()),
        }
    }

    pub fn list(&mut self, slot: Slot) -> &mut dyn Lend {
        match slot {
            Slot::Plane => &mut self.plane,
            Slot::Other => &mut self.other,
            Slot::Dst => &mut self.dst,
            Slot::Totals => &mut self.totals,
            Slot::Skip => &mut self.skip,
            Slot::Dirs => &mut self.dirs,
            Slot::Vars => &mut self.vars,
            Slot::Pris => &mut self.pris,
            Slot::Secs => &mut self.secs,
        }
    }
}
