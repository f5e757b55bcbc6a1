use crate::refusal::done;
use crate::{c, Refusal, Zone};

/// A rectangle of subchannels by slots in one zone (a data region): the first subchannel and how many, the first slot and
/// how many.
///
/// ```
/// use bellpulsar::*;
///
/// // PUSC downlink at 2048 in cell 5, 12 slots, all groups lit; and two bursts.
/// let zone = Zone { mode: Mode::PuscDl.number(), cell: 5, slots: 12, mask: ALL_GROUPS };
/// let mut bursts = vec![
///     Burst { subchannel: 0, subchannels: 20, slot: 0, slots: 12 },
///     Burst { subchannel: 20, subchannels: 30, slot: 0, slots: 6 },
/// ];
/// bursts_check(2048, zone, &bursts)?;
/// assert_eq!(burst_owner(2048, zone, 3, 25, &bursts)?, Owner { burst: Some(1), looked: 2 });
/// assert_eq!(burst_owners(2048, zone, 3, &bursts)?[18..22], [Some(0), Some(0), Some(1), Some(1)]);
///
/// bursts.push(Burst { subchannel: 49, subchannels: 1, slot: 5, slots: 7 });
/// assert_eq!(bursts_check(2048, zone, &bursts), Err(Refusal::Overlap));
/// # Ok::<(), Refusal>(())
/// ```
#[repr(C)] // Four numbers in this order: a slice of bursts is the list that the engine takes.
#[derive(Clone, Copy, Debug, Default, PartialEq, Eq)]
pub struct Burst {
    pub subchannel: u32,
    pub subchannels: u32,
    pub slot: u32,
    pub slots: u32,
}

/// The position of the burst that owns a subchannel in a slot, if one does, and how many bursts were looked at to find it.
#[derive(Clone, Copy, Debug, PartialEq, Eq)]
pub struct Owner {
    pub burst: Option<usize>,
    pub looked: usize,
}

/// In place of a burst's position: none.
fn position(burst: u32) -> Option<usize> {
    if burst == 64 {
        None
    } else {
        Some(burst as usize)
    }
}

/// Is a list of bursts fit for its zone: at most 64, none empty, each wholly in the zone and apart from every earlier one?
pub fn bursts_check(size: u32, zone: Zone, bursts: &[Burst]) -> Result<(), Refusal> {
    // Safety: a burst is four u32 in a row, so the list has four times as many as there are bursts.
    done(unsafe {
        c::bp_bursts_check(
            zone.mode,
            size,
            zone.cell,
            zone.slots,
            zone.mask,
            bursts.as_ptr().cast(),
            4 * bursts.len(),
        )
    })
}

/// The burst that a subchannel in a slot belongs to. The slot may be past the zone's last, where none is.
pub fn burst_owner(
    size: u32,
    zone: Zone,
    slot: u32,
    subchannel: u32,
    bursts: &[Burst],
) -> Result<Owner, Refusal> {
    let (mut owner, mut looked) = (0, 0);
    // Safety: as in `bursts_check`, and the out parameters are distinct variables.
    done(unsafe {
        c::bp_burst_owner(
            zone.mode,
            size,
            zone.cell,
            zone.slots,
            zone.mask,
            slot,
            subchannel,
            bursts.as_ptr().cast(),
            4 * bursts.len(),
            &mut owner,
            &mut looked,
        )
    })?;
    Ok(Owner {
        burst: position(owner),
        looked: looked as usize,
    })
}

/// The bursts that all subchannels of one slot belong to: what `burst_owner` gives for each, and None past the mode's last
/// subchannel.
pub fn burst_owners(
    size: u32,
    zone: Zone,
    slot: u32,
    bursts: &[Burst],
) -> Result<[Option<usize>; 192], Refusal> {
    let mut owners = [0u8; 192];
    // Safety: as in `bursts_check`, and `owners` has the 192 bytes that are written.
    done(unsafe {
        c::bp_burst_owners(
            zone.mode,
            size,
            zone.cell,
            zone.slots,
            zone.mask,
            slot,
            bursts.as_ptr().cast(),
            4 * bursts.len(),
            owners.as_mut_ptr(),
        )
    })?;
    Ok(owners.map(|owner| position(owner.into())))
}
