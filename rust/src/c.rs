//! The C interface as the header, include/bellpulsar.h, has it.

unsafe extern "C" {
    pub fn bp_version() -> u32;
    pub fn bp_place(
        mode: u32, size: u32, cell: u32, slot: u32, subchannel: u32, index: u32,
        pilots: *const u32, pilots_len: usize, symbol: *mut u32, carrier: *mut i32,
    ) -> u32;
    pub fn bp_locate(
        mode: u32, size: u32, cell: u32, symbol: u32, carrier: i32,
        pilots: *const u32, pilots_len: usize,
        kind: *mut u32, slot: *mut u32, subchannel: *mut u32, index: *mut u32,
    ) -> u32;
    pub fn bp_places(
        mode: u32, size: u32, cell: u32, slot: u32, subchannel: u32,
        pilots: *const u32, pilots_len: usize, places: *mut u32,
    ) -> u32;
    pub fn bp_points_len(mode: u32, size: u32) -> usize;
    pub fn bp_lit_points_len(mode: u32, size: u32, mask: u32) -> usize;
    pub fn bp_grid_len(mode: u32, size: u32) -> usize;
    pub fn bp_ground(
        mode: u32, size: u32, cell: u32, mask: u32, slot: u32,
        pilots: *const u32, pilots_len: usize, pilot: *const f32, grid: *mut f32, grid_len: usize,
    ) -> u32;
    pub fn bp_lay(
        mode: u32, size: u32, cell: u32, mask: u32, slot: u32, subchannel: u32,
        pilots: *const u32, pilots_len: usize,
        points: *const f32, points_len: usize, grid: *mut f32, grid_len: usize,
    ) -> u32;
    pub fn bp_empty(
        mode: u32, size: u32, cell: u32, mask: u32, slot: u32,
        pilots: *const u32, pilots_len: usize,
        grid: *const f32, grid_len: usize, points: *mut f32, points_len: usize,
    ) -> u32;
    pub fn bp_empty_first(
        mode: u32, size: u32, cell: u32, mask: u32, slot: u32, carriers: u32,
        pilots: *const u32, pilots_len: usize,
        grid: *const f32, grid_len: usize, points: *mut f32, points_len: usize,
    ) -> u32;
    pub fn bp_look(
        mode: u32, size: u32, cell: u32, mask: u32, symbol: u32,
        pilots: *const u32, pilots_len: usize,
        grid: *const f32, grid_len: usize, carrier: i32,
        kind: *mut u32, point: *mut f32, slot: *mut u32, subchannel: *mut u32, index: *mut u32,
    ) -> u32;
    pub fn bp_ofusc_collisions(
        size: u32, cell_a: u32, subchannel_a: u32, cell_b: u32, subchannel_b: u32,
        hits: *mut u8, count: *mut u32,
    ) -> u32;
    pub fn bp_amc_collisions(cell_a: u32, cell_b: u32, hits: *mut u8, count: *mut u32) -> u32;
    pub fn bp_zone_plan_read(
        bytes: *const u8, len: usize, count: *mut u32, size: *mut u32, zones: *mut u32,
    ) -> u32;
    pub fn bp_zone_plan_write(
        count: u32, size: u32, zones: *const u32, dest: *mut u8, dest_len: usize, written: *mut u32,
    ) -> u32;
    pub fn bp_bursts_check(
        mode: u32, size: u32, cell: u32, slots: u32, mask: u32, bursts: *const u32, bursts_len: usize,
    ) -> u32;
    pub fn bp_burst_owner(
        mode: u32, size: u32, cell: u32, slots: u32, mask: u32, slot: u32, subchannel: u32,
        bursts: *const u32, bursts_len: usize, owner: *mut u32, looked: *mut u32,
    ) -> u32;
    pub fn bp_burst_owners(
        mode: u32, size: u32, cell: u32, slots: u32, mask: u32, slot: u32,
        bursts: *const u32, bursts_len: usize, owners: *mut u8,
    ) -> u32;
}
