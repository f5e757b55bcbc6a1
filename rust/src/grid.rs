use crate::refusal::done;
use crate::{c, Address, Mode, Piloted, Refusal};

/// In-phase and quadrature.
pub type Point = [f32; 2];

/// What stands on a carrier of a grid: nothing on guards, DC and what is unlit.
#[derive(Clone, Copy, Debug, PartialEq)]
pub enum Seen {
    Nothing,
    Pilot(Point),
    Data(Point, Address),
}

/// The mask of PUSC downlink that lights every major group: bit g is for group g. The other modes have mask 0, and all is
/// lit.
pub const ALL_GROUPS: u32 = 63;

/// The floats of a slot's points where all is lit, 96 for each subchannel; 0 for a size that is not the mode's.
pub fn points_len(mode: Mode, size: u32) -> usize {
    // Safety: no pointer is given.
    unsafe { c::bp_points_len(mode.number(), size) }
}

/// The floats of a slot's points under a mask, 96 for each lit subchannel; 0 for a size or a mask that is not the
/// mode's.
pub fn lit_points_len(mode: Mode, size: u32, mask: u32) -> usize {
    // Safety: no pointer is given.
    unsafe { c::bp_lit_points_len(mode.number(), size, mask) }
}

/// The floats of a slot's grid, 2 for each carrier of each symbol of a slot; 0 for a size that is not the mode's.
pub fn grid_len(mode: Mode, size: u32) -> usize {
    // Safety: no pointer is given.
    unsafe { c::bp_grid_len(mode.number(), size) }
}

/// The first move of filling a slot's grid: the pilot point on lit pilots, 0.0 on every other carrier, data too. The
/// whole grid is written.
///
/// ```
/// use bellpulsar::*;
///
/// // Optional FUSC at 1024 has one symbol a slot and 16 subchannels. All are lit.
/// let (setup, mask, slot) = (Setup { mode: Mode::Ofusc, size: 1024, cell: 17 }, 0, 0);
/// let mut grid = vec![0.0; grid_len(setup.mode, setup.size)];
/// ground(setup, mask, slot, [1.0, 0.0], &mut grid)?;
///
/// let points: Vec<f32> = (0..16 * 96).map(|n| n as f32).collect();
/// for (subchannel, own) in points.chunks(96).enumerate() {
///     lay(setup, mask, slot, subchannel as u32, own, &mut grid)?;
/// }
/// let whose = Address { slot: 0, subchannel: 0, index: 0 };
/// assert_eq!(look(setup, mask, 0, &grid, -425)?, Seen::Data([0.0, 1.0], whose));
/// assert_eq!(look(setup, mask, 0, &grid, 0)?, Seen::Nothing); // DC
///
/// let mut back = vec![0.0; points.len()];
/// empty(setup, mask, slot, &grid, &mut back)?;
/// assert_eq!(back, points);
/// # Ok::<(), Refusal>(())
/// ```
pub fn ground<'a>(
    setup: impl Into<Piloted<'a>>,
    mask: u32,
    slot: u32,
    pilot: Point,
    grid: &mut [f32],
) -> Result<(), Refusal> {
    let setup = setup.into();
    let (mode, size, cell) = setup.numbers();
    // Safety: each pointer comes with its slice's own length, and a slice lent mutably overlaps no other.
    done(unsafe {
        c::bp_ground(
            mode,
            size,
            cell,
            mask,
            slot,
            setup.pilots.as_ptr(),
            setup.pilots.len(),
            pilot.as_ptr(),
            grid.as_mut_ptr(),
            grid.len(),
        )
    })
}

/// The second move: lays the 48 points, 96 floats, of one lit subchannel on the grid; no other float of it is written.
/// Subchannels may be laid in any order, and again. A ground serves every slot whose pilots are on the same carriers: all
/// slots in PUSC, AMC 2x3 and AMC 1x6, those that agree mod 3 in optional FUSC, AMC 6x1 and AMC 3x2, those with the same
/// pilot list in FUSC. Where all is lit it serves every cell too; else only the same cell and mask.
pub fn lay<'a>(
    setup: impl Into<Piloted<'a>>,
    mask: u32,
    slot: u32,
    subchannel: u32,
    points: &[f32],
    grid: &mut [f32],
) -> Result<(), Refusal> {
    let setup = setup.into();
    let (mode, size, cell) = setup.numbers();
    // Safety: as in `ground`.
    done(unsafe {
        c::bp_lay(
            mode,
            size,
            cell,
            mask,
            slot,
            subchannel,
            setup.pilots.as_ptr(),
            setup.pilots.len(),
            points.as_ptr(),
            points.len(),
            grid.as_mut_ptr(),
            grid.len(),
        )
    })
}

/// Takes the points of the lit subchannels off a slot's grid, rising; all of `points` is written.
pub fn empty<'a>(
    setup: impl Into<Piloted<'a>>,
    mask: u32,
    slot: u32,
    grid: &[f32],
    points: &mut [f32],
) -> Result<(), Refusal> {
    let setup = setup.into();
    let (mode, size, cell) = setup.numbers();
    // Safety: as in `ground`.
    done(unsafe {
        c::bp_empty(
            mode,
            size,
            cell,
            mask,
            slot,
            setup.pilots.as_ptr(),
            setup.pilots.len(),
            grid.as_ptr(),
            grid.len(),
            points.as_mut_ptr(),
            points.len(),
        )
    })
}

/// Takes the points off the first carriers of a slot's grid alone, each to where `empty` puts it; every other float of
/// `points` stays. Carriers count from the grid's start, symbol after symbol, each by rising carrier, guards, DC and pilots
/// too; any count is accepted, and one past the grid's end means all. Call it again with a larger count as a capture
/// delivers more.
pub fn empty_first<'a>(
    setup: impl Into<Piloted<'a>>,
    mask: u32,
    slot: u32,
    carriers: u32,
    grid: &[f32],
    points: &mut [f32],
) -> Result<(), Refusal> {
    let setup = setup.into();
    let (mode, size, cell) = setup.numbers();
    // Safety: as in `ground`.
    done(unsafe {
        c::bp_empty_first(
            mode,
            size,
            cell,
            mask,
            slot,
            carriers,
            setup.pilots.as_ptr(),
            setup.pilots.len(),
            grid.as_ptr(),
            grid.len(),
            points.as_mut_ptr(),
            points.len(),
        )
    })
}

/// The point on a carrier in a symbol of the zone, read from the grid of the symbol's slot, and whose it is.
pub fn look<'a>(
    setup: impl Into<Piloted<'a>>,
    mask: u32,
    symbol: u32,
    grid: &[f32],
    carrier: i32,
) -> Result<Seen, Refusal> {
    let setup = setup.into();
    let (mode, size, cell) = setup.numbers();
    let (mut kind, mut point, mut of) = (0, [0.0; 2], Address::default());
    // Safety: grid and list come with their own lengths, and the out parameters are distinct variables.
    done(unsafe {
        c::bp_look(
            mode,
            size,
            cell,
            mask,
            symbol,
            setup.pilots.as_ptr(),
            setup.pilots.len(),
            grid.as_ptr(),
            grid.len(),
            carrier,
            &mut kind,
            point.as_mut_ptr(),
            &mut of.slot,
            &mut of.subchannel,
            &mut of.index,
        )
    })?;
    Ok(match kind {
        0 => Seen::Nothing,
        2 => Seen::Pilot(point),
        3 => Seen::Data(point, of),
        _ => unreachable!("the header has no kind {kind}"),
    })
}
