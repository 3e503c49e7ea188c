use crate::DisplayLine;

/// Why a call was refused, each exactly when document 01 says so. But for `BlankWindow`, which sets the asked slots, starts and
/// sizes to 0, every lent list is unchanged.
#[derive(Clone, Copy, Debug, PartialEq, Eq)]
pub enum Refusal {
    /// 1: a side or row length outside the sizes
    BadSide,
    /// 2: a crop or centring number is NaN or infinite
    NotFinite,
    /// 3: crop width or height below 0
    NegativeExtent,
    /// 4: left or top below 0, or at or past the image side
    StartOutside,
    /// 5: left + width, or top + height, past the image side: the exact sum, nothing rounded
    EndOutside,
    /// 6: scale is 0 or less
    NoScale,
    /// 7: fewer slots, starts or sizes lent than needed
    TooFewSlots,
    /// 8: a window has no weight other than 0, or its weight total is 0; the first such line
    BlankWindow(DisplayLine),
    /// 9: a weight not finite, a precision below 4, or a rounded weight outside its type
    WeightOutside,
    /// 10: list lengths, a column range or a window do not fit
    DoesNotFit,
    /// 11: sheet room too small
    NoRoom,
    /// 12: f32 pass: a sample or weight in use not finite, or a weight above 2^64 in size
    SampleOutside,
    /// 13: a text that is not of a sheet's form; how many of its bytes begin some sheet
    NotASheet(u64),
    /// 14: an offer of weights that is not accepted
    NotAccepted,
    /// 14: no offer of our own; the first display line that has none
    NoOffer(DisplayLine),
    /// 15: the shares of a restart are together more than the store's slots
    SharesDoNotFit,
    /// 16: a filter that no new set is built with
    RetiredFilter,
    /// 100: a code that names nothing; enums of this crate have no such code
    BadCode,
}

/// The answer of a call: `line` is what stood beside it.
pub(crate) fn judged(number: u32, line: u32) -> Result<(), Refusal> {
    judged_at(number, line, 0)
}

/// The same, with the byte that stood beside it.
pub(crate) fn judged_at(number: u32, line: u32, byte: u64) -> Result<(), Refusal> {
    Err(match number {
        0 => return Ok(()),
        1 => Refusal::BadSide,
        2 => Refusal::NotFinite,
        3 => Refusal::NegativeExtent,
        4 => Refusal::StartOutside,
        5 => Refusal::EndOutside,
        6 => Refusal::NoScale,
        7 => Refusal::TooFewSlots,
        8 => Refusal::BlankWindow(DisplayLine(line)),
        9 => Refusal::WeightOutside,
        10 => Refusal::DoesNotFit,
        11 => Refusal::NoRoom,
        12 => Refusal::SampleOutside,
        13 => Refusal::NotASheet(byte),
        14 => Refusal::NoOffer(DisplayLine(line)),
        15 => Refusal::SharesDoNotFit,
        16 => Refusal::RetiredFilter,
        _ => Refusal::BadCode,
    })
}

impl Refusal {
    /// The number of document 01's table.
    pub fn number(self) -> u32 {
        match self {
            Refusal::BadSide => 1,
            Refusal::NotFinite => 2,
            Refusal::NegativeExtent => 3,
            Refusal::StartOutside => 4,
            Refusal::EndOutside => 5,
            Refusal::NoScale => 6,
            Refusal::TooFewSlots => 7,
            Refusal::BlankWindow(_) => 8,
            Refusal::WeightOutside => 9,
            Refusal::DoesNotFit => 10,
            Refusal::NoRoom => 11,
            Refusal::SampleOutside => 12,
            Refusal::NotASheet(_) => 13,
            Refusal::NotAccepted | Refusal::NoOffer(_) => 14,
            Refusal::SharesDoNotFit => 15,
            Refusal::RetiredFilter => 16,
            Refusal::BadCode => 100,
        }
    }
}
