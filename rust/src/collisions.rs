use crate::refusal::done;
use crate::{c, Refusal};

/// 48 marks, of groups (optional FUSC) or of indices (AMC), and how many are true. A mark is true where one subchannel of
/// the first cell and one of the second share a carrier (optional FUSC), or where both cells put the same index of a
/// subchannel on the same carrier of the same symbol (AMC). The two cells may be different or the same. There is no such
/// call for PUSC.
///
/// ```
/// use bellpulsar::{amc_collisions, ofusc_collisions, Refusal};
///
/// let found = ofusc_collisions(2048, 0, 2, 1010, 0)?; // subchannel 2 of cell 0 and subchannel 0 of cell 1010
/// assert_eq!(found.count, 4);
/// assert!([0, 1, 31, 32].iter().all(|group| found.hits[*group]));
///
/// let found = amc_collisions(48, 176)?;
/// assert_eq!(found.count, 3);
/// assert!([8, 24, 32].iter().all(|index| found.hits[*index]));
/// # Ok::<(), Refusal>(())
/// ```
#[derive(Clone, Copy, Debug, PartialEq, Eq)]
pub struct Collisions {
    pub hits: [bool; 48],
    pub count: u32,
}

/// Optional FUSC: the groups in which one subchannel of `cell_a` and one subchannel of `cell_b` share a carrier.
///
/// All subchannels of `cell_b` together share a carrier with `subchannel_a` in all 48 groups, whichever the cells are.
pub fn ofusc_collisions(
    size: u32,
    cell_a: u32,
    subchannel_a: u32,
    cell_b: u32,
    subchannel_b: u32,
) -> Result<Collisions, Refusal> {
    let (mut hits, mut count) = ([0u8; 48], 0);
    // Safety: `hits` has the 48 bytes that are written.
    done(unsafe {
        c::bp_ofusc_collisions(
            size,
            cell_a,
            subchannel_a,
            cell_b,
            subchannel_b,
            hits.as_mut_ptr(),
            &mut count,
        )
    })?;
    Ok(Collisions {
        hits: hits.map(|hit| hit == 1),
        count,
    })
}

/// AMC: the indices that one subchannel of `cell_a` and the same subchannel of `cell_b` have on the same carrier of the
/// same symbol, the same in every slot shape, size, slot and subchannel.
///
/// A subchannel of AMC has the same carriers under every cell: what is counted is where both cells put the same index.
pub fn amc_collisions(cell_a: u32, cell_b: u32) -> Result<Collisions, Refusal> {
    let (mut hits, mut count) = ([0u8; 48], 0);
    // Safety: `hits` has the 48 bytes that are written.
    done(unsafe { c::bp_amc_collisions(cell_a, cell_b, hits.as_mut_ptr(), &mut count) })?;
    Ok(Collisions {
        hits: hits.map(|hit| hit == 1),
        count,
    })
}
