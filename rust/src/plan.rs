use crate::refusal::done;
use crate::{c, Refusal};

/// A zone of a plan: the number of its mode, which is any but PUSC uplink, its cell, how many slots it has, and its mask.
#[derive(Clone, Copy, Debug, Default, PartialEq, Eq)]
pub struct Zone {
    pub mode: u32,
    pub cell: u32,
    pub slots: u32,
    pub mask: u32,
}

/// A zone plan; the places past the count are all zero.
///
/// ```
/// use bellpulsar::{plan_read, plan_write, Mode, Refusal, Zone};
///
/// let bytes = [0x02, 0x80, 0x08, 0x02, 0x11, 0x03, 0x00, 0x03, 0xB0, 0x01, 0x01, 0x00];
/// let plan = plan_read(&bytes)?;
/// assert_eq!((plan.count, plan.size), (2, 1024));
/// assert_eq!(plan.zones[0], Zone { mode: Mode::Ofusc.number(), cell: 17, slots: 3, mask: 0 });
/// assert_eq!(plan.zones[1], Zone { mode: Mode::Amc6x1.number(), cell: 176, slots: 1, mask: 0 });
///
/// let mut again = [0; 51]; // the most that a plan takes
/// let written = plan_write(&plan, &mut again)?;
/// assert_eq!(again[..written], bytes);
/// assert_eq!(plan_read(&bytes[..7]), Err(Refusal::CutShort));
/// # Ok::<(), Refusal>(())
/// ```
#[derive(Clone, Copy, Debug, Default, PartialEq, Eq)]
pub struct Plan {
    pub count: u32,
    pub size: u32,
    pub zones: [Zone; 8],
}

/// The zone plan that the bytes are.
pub fn plan_read(bytes: &[u8]) -> Result<Plan, Refusal> {
    let (mut plan, mut numbers) = (Plan::default(), [0u32; 32]);
    // Safety: the bytes come with their own length, and `numbers` has the 32 that are written.
    done(unsafe {
        c::bp_zone_plan_read(
            bytes.as_ptr(),
            bytes.len(),
            &mut plan.count,
            &mut plan.size,
            numbers.as_mut_ptr(),
        )
    })?;
    for (zone, four) in plan.zones.iter_mut().zip(numbers.chunks_exact(4)) {
        *zone = Zone {
            mode: four[0],
            cell: four[1],
            slots: four[2],
            mask: four[3],
        };
    }
    Ok(plan)
}

/// Writes a plan at the start of `dest` and tells how many bytes it takes; further bytes stay.
pub fn plan_write(plan: &Plan, dest: &mut [u8]) -> Result<usize, Refusal> {
    let (mut numbers, mut written) = ([0u32; 32], 0);
    for (four, zone) in numbers.chunks_exact_mut(4).zip(plan.zones) {
        four.copy_from_slice(&[zone.mode, zone.cell, zone.slots, zone.mask]);
    }
    // Safety: `numbers` has the 32 that are read, and the destination comes with its own length.
    done(unsafe {
        c::bp_zone_plan_write(
            plan.count,
            plan.size,
            numbers.as_ptr(),
            dest.as_mut_ptr(),
            dest.len(),
            &mut written,
        )
    })?;
    Ok(written as usize)
}
