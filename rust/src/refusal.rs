use std::fmt;

/// A request that was refused: the first question that is answered no, under the header's name and number.
#[non_exhaustive] // A later version may have more.
#[derive(Clone, Copy, Debug, PartialEq, Eq, Hash)]
pub enum Refusal {
    /// The mode is not listed.
    Mode = 1,
    /// The size is not one of that mode's, or of a plan.
    Size = 2,
    /// The cell is out of range.
    Cell = 3,
    /// The slot, or the zone's symbol, is out of range.
    Slot = 4,
    /// The subchannel is out of range, or (of a lay) unlit.
    Subchannel = 5,
    /// The index is out of range.
    Index = 6,
    /// The carrier is out of range.
    Carrier = 7,
    /// The points have another length.
    PointsLen = 8,
    /// The grid has another length.
    GridLen = 9,
    /// A plan's bytes end within a value.
    CutShort = 10,
    /// A value of a plan is too long, or not in its shortest form.
    Form = 11,
    /// A plan's count of zones is out of range, or a place past it is not all zero.
    Count = 12,
    /// A zone's slots are out of range.
    ZoneSlots = 13,
    /// A plan's zones are out of order.
    Order = 14,
    /// Bytes are left over behind a plan.
    LeftOver = 15,
    /// The destination is too short for the plan.
    DestLen = 16,
    /// The mask is not one of that mode's.
    Mask = 17,
    /// There are too many bursts, or one is empty or not wholly in its zone.
    Burst = 18,
    /// A burst overlaps an earlier one.
    Overlap = 19,
    /// The pilot list is not 166 rising used numbers in FUSC, or not empty in another mode.
    Pilots = 20,
}

impl Refusal {
    /// Every refusal, by number.
    pub const ALL: &'static [Refusal] = &[
        Refusal::Mode,
        Refusal::Size,
        Refusal::Cell,
        Refusal::Slot,
        Refusal::Subchannel,
        Refusal::Index,
        Refusal::Carrier,
        Refusal::PointsLen,
        Refusal::GridLen,
        Refusal::CutShort,
        Refusal::Form,
        Refusal::Count,
        Refusal::ZoneSlots,
        Refusal::Order,
        Refusal::LeftOver,
        Refusal::DestLen,
        Refusal::Mask,
        Refusal::Burst,
        Refusal::Overlap,
        Refusal::Pilots,
    ];

    /// The question's number.
    pub fn number(self) -> u32 {
        self as u32
    }

    /// The question in words.
    pub fn question(self) -> &'static str {
        match self {
            Refusal::Mode => "Is the mode listed (in a plan and of bursts: 0 or 2 to 7)?",
            Refusal::Size => "Is the size that mode's (of a plan: 256, 512, 1024 or 2048)?",
            Refusal::Cell => "Is the cell in range?",
            Refusal::Slot => "Is the slot below 512, the zone's symbol below 512 times the slot length?",
            Refusal::Subchannel => "Is the subchannel in range (of a lay: and lit)?",
            Refusal::Index => "Is the index below 48?",
            Refusal::Carrier => "Is the carrier from -size/2 to size/2 - 1?",
            Refusal::PointsLen => "Are the points just 96 floats for each subchannel that is lit (of a lay: 96)?",
            Refusal::GridLen => "Is the grid just 2 * size floats for each symbol of a slot?",
            Refusal::CutShort => "Do the bytes reach to the value's end or its third group?",
            Refusal::Form => "Does the value end by its third group, in shortest form?",
            Refusal::Count => "Is the count 1 to 8, and in writing every place past it zero?",
            Refusal::ZoneSlots => "Are the slots 1 to 512?",
            Refusal::Order => "At 2048, is the first zone mode 0, and does only AMC (modes 3 to 6) follow AMC?",
            Refusal::LeftOver => "Are the bytes used up?",
            Refusal::DestLen => "Is the destination long enough?",
            Refusal::Mask => "Is the mask 1 to 63 in mode 0, 0 in the others?",
            Refusal::Burst => "Are the bursts at most 64, of four numbers each, none empty and each wholly in its zone?",
            Refusal::Overlap => "Is the burst apart from every earlier one?",
            Refusal::Pilots => "Are the pilots 166 rising used numbers below 1702 in mode 7, none in the others?",
        }
    }
}

impl fmt::Display for Refusal {
    fn fmt(&self, f: &mut fmt::Formatter) -> fmt::Result {
        write!(f, "refused {}: {}", self.number(), self.question())
    }
}

impl std::error::Error for Refusal {}

/// 0 is done, any other number a refusal.
pub(crate) fn done(number: u32) -> Result<(), Refusal> {
    if number == 0 {
        return Ok(());
    }
    let mut refusals = Refusal::ALL.iter().copied();
    Err(refusals
        .find(|refusal| refusal.number() == number)
        .unwrap_or_else(|| unreachable!("the header has no refusal {number}")))
}
