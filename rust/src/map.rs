use crate::refusal::done;
use crate::{c, Mode, Refusal};

/// Mode, FFT size and cell (the permutation base).
#[derive(Clone, Copy, Debug, PartialEq, Eq, Hash)]
pub struct Setup {
    pub mode: Mode,
    pub size: u32,
    pub cell: u32,
}

impl Setup {
    /// The setup with the pilot list of a symbol in FUSC: the used numbers of its 166 pilots, rising, each below 1702. Used
    /// number u is carrier u - 851 below 851, and u - 850 from there on. What the list leaves is data. It may be another one
    /// for each slot: a grid is emptied and looked at with the list that it was filled with.
    ///
    /// ```
    /// use bellpulsar::*;
    ///
    /// // An even spread, laid and emptied. FUSC has one symbol a slot and 32 subchannels.
    /// let pilots: Vec<u32> = (26..1677).step_by(10).collect();
    /// let (alone, mask, slot) = (Setup { mode: Mode::Fusc, size: 2048, cell: 0 }, 0, 0);
    /// let setup = alone.with_pilots(&pilots);
    ///
    /// let address = Address { slot, subchannel: 31, index: 46 };
    /// let at = place(setup, address)?;
    /// assert_eq!(at, Place { symbol: 0, carrier: -217 });
    /// assert_eq!(locate(setup, at)?, Content::Data(address));
    /// assert_eq!(locate(setup, Place { symbol: 0, carrier: 26 - 851 })?, Content::Pilot);
    ///
    /// let mut grid = vec![0.0; grid_len(Mode::Fusc, 2048)];
    /// ground(setup, mask, slot, [1.0, 0.0], &mut grid)?;
    /// let points: Vec<f32> = (0..32 * 96).map(|n| n as f32).collect();
    /// for (subchannel, own) in (0..).zip(points.chunks(96)) {
    ///     lay(setup, mask, slot, subchannel, own, &mut grid)?;
    /// }
    /// let mut back = vec![0.0; points.len()];
    /// empty(setup, mask, slot, &grid, &mut back)?;
    /// assert_eq!(back, points);
    ///
    /// // FUSC asks for a list, and no other mode takes one.
    /// assert_eq!(place(alone, address), Err(Refusal::Pilots));
    /// let other = Setup { mode: Mode::Ofusc, ..alone };
    /// assert_eq!(place(other.with_pilots(&pilots), address), Err(Refusal::Pilots));
    /// # Ok::<(), Refusal>(())
    /// ```
    pub fn with_pilots(self, pilots: &[u32]) -> Piloted<'_> {
        Piloted {
            setup: self,
            pilots,
        }
    }
}

/// A setup and the pilot list that is lent with it. A [`Setup`] alone is one whose list is empty, as every mode but FUSC has
/// it.
#[derive(Clone, Copy, Debug, PartialEq, Eq, Hash)]
pub struct Piloted<'a> {
    pub setup: Setup,
    pub pilots: &'a [u32],
}

impl Piloted<'_> {
    pub(crate) fn numbers(&self) -> (u32, u32, u32) {
        (self.setup.mode.number(), self.setup.size, self.setup.cell)
    }
}

impl From<Setup> for Piloted<'_> {
    fn from(setup: Setup) -> Self {
        setup.with_pilots(&[])
    }
}

/// Whose point it is.
#[derive(Clone, Copy, Debug, Default, PartialEq, Eq)]
pub struct Address {
    pub slot: u32,
    pub subchannel: u32,
    pub index: u32,
}

/// Where a point lies: the zone's symbol and the carrier, which counts from DC, -size/2 to size/2 - 1.
#[derive(Clone, Copy, Debug, Default, PartialEq, Eq)]
pub struct Place {
    pub symbol: u32,
    pub carrier: i32,
}

/// What a carrier holds.
#[derive(Clone, Copy, Debug, PartialEq, Eq)]
pub enum Content {
    Guard,
    Dc,
    Pilot,
    Data(Address),
}

/// Where a point lies.
pub fn place<'a>(setup: impl Into<Piloted<'a>>, address: Address) -> Result<Place, Refusal> {
    let setup = setup.into();
    let (mode, size, cell) = setup.numbers();
    let mut at = Place::default();
    // Safety: the list comes with its own length, and both out parameters are distinct fields of `at`.
    done(unsafe {
        c::bp_place(
            mode,
            size,
            cell,
            address.slot,
            address.subchannel,
            address.index,
            setup.pilots.as_ptr(),
            setup.pilots.len(),
            &mut at.symbol,
            &mut at.carrier,
        )
    })?;
    Ok(at)
}

/// What a carrier holds in a symbol of the zone.
pub fn locate<'a>(setup: impl Into<Piloted<'a>>, at: Place) -> Result<Content, Refusal> {
    let setup = setup.into();
    let (mode, size, cell) = setup.numbers();
    let (mut kind, mut of) = (0, Address::default());
    // Safety: the list comes with its own length, and the out parameters are distinct variables.
    done(unsafe {
        c::bp_locate(
            mode,
            size,
            cell,
            at.symbol,
            at.carrier,
            setup.pilots.as_ptr(),
            setup.pilots.len(),
            &mut kind,
            &mut of.slot,
            &mut of.subchannel,
            &mut of.index,
        )
    })?;
    Ok(match kind {
        0 => Content::Guard,
        1 => Content::Dc,
        2 => Content::Pilot,
        3 => Content::Data(of),
        _ => unreachable!("the header has no kind {kind}"),
    })
}

/// Where the 48 points of a subchannel stand in a slot's grid, by index, for a caller who keeps the table and copies
/// through it. They count the grid's points: each is size times the symbol's offset in the slot, plus size/2, plus the
/// carrier. A table serves every slot of its cell whose pilots are on the same carriers; [`lay`](crate::lay) says which
/// these are.
///
/// ```
/// use bellpulsar::{lay, places, Mode, Point, Refusal, Setup};
///
/// let setup = Setup { mode: Mode::Ofusc, size: 1024, cell: 17 };
/// let table = places(setup, 0, 0)?;
/// assert_eq!(table[0], 87); // carrier -425 in the first row
///
/// let points: Vec<Point> = (0..48).map(|n| [n as f32, -1.0]).collect();
/// let mut grid: Vec<Point> = vec![[0.0, 0.0]; 1024];
/// for (at, point) in table.iter().zip(&points) {
///     grid[*at as usize] = *point;
/// }
/// let mut laid = vec![0.0; 2048];
/// lay(setup, 0, 0, 0, &points.concat(), &mut laid)?;
/// assert_eq!(grid.concat(), laid);
///
/// let back: Vec<Point> = table.iter().map(|at| grid[*at as usize]).collect();
/// assert_eq!(back, points);
/// # Ok::<(), Refusal>(())
/// ```
pub fn places<'a>(
    setup: impl Into<Piloted<'a>>,
    slot: u32,
    subchannel: u32,
) -> Result<[u32; 48], Refusal> {
    let setup = setup.into();
    let (mode, size, cell) = setup.numbers();
    let mut places = [0; 48];
    // Safety: the list comes with its own length, and `places` has the 48 numbers that are written.
    done(unsafe {
        c::bp_places(
            mode,
            size,
            cell,
            slot,
            subchannel,
            setup.pilots.as_ptr(),
            setup.pilots.len(),
            places.as_mut_ptr(),
        )
    })?;
    Ok(places)
}
