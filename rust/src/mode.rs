use crate::Refusal;
use std::fmt;
use std::str::FromStr;

/// A mode of the air interface. AMC has one for each slot shape, bins by symbols.
///
/// ```
/// use bellpulsar::{Mode, Refusal};
///
/// let mode: Mode = "amc-2x3".parse()?;
/// assert_eq!(mode, Mode::Amc2x3);
/// assert_eq!((mode.number(), mode.to_string()), (4, "amc-2x3".to_string()));
/// assert_eq!("4".parse(), Ok(mode));
/// assert_eq!(Mode::try_from(4), Ok(mode));
/// assert_eq!(Mode::try_from(8), Err(Refusal::Mode));
/// # Ok::<(), Refusal>(())
/// ```
#[non_exhaustive] // A later version may have more.
#[derive(Clone, Copy, Debug, PartialEq, Eq, Hash)]
pub enum Mode {
    /// PUSC downlink.
    PuscDl = 0,
    /// PUSC uplink.
    PuscUl = 1,
    /// Optional FUSC.
    Ofusc = 2,
    /// AMC 6x1.
    Amc6x1 = 3,
    /// AMC 2x3.
    Amc2x3 = 4,
    /// AMC 3x2.
    Amc3x2 = 5,
    /// AMC 1x6.
    Amc1x6 = 6,
    /// FUSC, whose pilots are a list of the caller's ([`Setup::with_pilots`](crate::Setup::with_pilots)).
    Fusc = 7,
}

impl Mode {
    /// Every mode, by number.
    pub const ALL: &'static [Mode] = &[
        Mode::PuscDl,
        Mode::PuscUl,
        Mode::Ofusc,
        Mode::Amc6x1,
        Mode::Amc2x3,
        Mode::Amc3x2,
        Mode::Amc1x6,
        Mode::Fusc,
    ];

    /// The header's number, as a [`Zone`](crate::Zone) has it.
    pub fn number(self) -> u32 {
        self as u32
    }

    fn listed(is: impl Fn(&Mode) -> bool) -> Result<Mode, Refusal> {
        let mut modes = Mode::ALL.iter().copied();
        modes.find(is).ok_or(Refusal::Mode)
    }
}

/// The mode of this number.
impl TryFrom<u32> for Mode {
    type Error = Refusal;

    fn try_from(number: u32) -> Result<Mode, Refusal> {
        Mode::listed(|mode| mode.number() == number)
    }
}

/// The mode of this name, or of this number in base ten.
impl FromStr for Mode {
    type Err = Refusal;

    fn from_str(text: &str) -> Result<Mode, Refusal> {
        Mode::listed(|mode| mode.to_string() == text || mode.number().to_string() == text)
    }
}

/// The name by which the command line has it.
impl fmt::Display for Mode {
    fn fmt(&self, f: &mut fmt::Formatter) -> fmt::Result {
        f.pad(match self {
            Mode::PuscDl => "pusc-dl",
            Mode::PuscUl => "pusc-ul",
            Mode::Ofusc => "ofusc",
            Mode::Amc6x1 => "amc-6x1",
            Mode::Amc2x3 => "amc-2x3",
            Mode::Amc3x2 => "amc-3x2",
            Mode::Amc1x6 => "amc-1x6",
            Mode::Fusc => "fusc",
        })
    }
}
