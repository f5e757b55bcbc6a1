//! The crate, and through it every call, held to the reference's rows (rows.py): answers, first
//! refusals, every bit of every float, and that what is not to be written keeps its contents. Run by run.sh.

use bellpulsar::*;
use std::fs::read_to_string;

/// The rows of this name, of which there are at least so many. A negative number stands as its 32 bits.
fn rows(name: &str, least: usize) -> Vec<Vec<u32>> {
    let text = read_to_string("../../build/rust/rows.txt").expect("rows.txt, which run.sh writes");
    let number = |word: &str| match word.strip_prefix('-') {
        None => word.parse::<u32>().unwrap(),
        Some(_) => word.parse::<i32>().unwrap() as u32,
    };
    let rows: Vec<Vec<u32>> = text
        .lines()
        .filter_map(|line| line.strip_prefix(name)?.strip_prefix(' '))
        .map(|line| line.split(' ').map(number).collect())
        .collect();
    assert!(rows.len() >= least, "{} rows of {name}", rows.len());
    rows
}

/// What a row expects: its answer, or its refusal where that is not 0.
fn expected<T>(refusal: u32, answer: T) -> Result<T, Refusal> {
    match refusal {
        0 => Ok(answer),
        number => Err(refused(number)),
    }
}

fn refused(number: u32) -> Refusal {
    Refusal::ALL[number as usize - 1]
}

/// The pilot lists, by number.
fn lists() -> Vec<Vec<u32>> {
    let read = |row: Vec<u32>| {
        assert_eq!(row[0] as usize, row.len() - 1, "{row:?}");
        row[1..].to_vec()
    };
    rows("list", 30).into_iter().map(read).collect()
}

/// A row's setup. An unlisted mode is refused here, and the call is not made. With an empty list it is the setup alone, as
/// callers of most modes give it.
fn setup(mode: u32, size: u32, cell: u32, pilots: &[u32]) -> Result<Piloted<'_>, Refusal> {
    let mode = Mode::try_from(mode)?;
    let alone = Setup { mode, size, cell };
    Ok(match pilots {
        [] => alone.into(),
        pilots => alone.with_pilots(pilots),
    })
}

/// Floats lent to a call, and guards on both sides.
struct Lent {
    floats: Vec<f32>,
}

const GUARD: usize = 16;

impl Lent {
    fn new(bits: &[u32]) -> Lent {
        let guard = |n: usize| 0x7F90_0000 + n as u32;
        let bits = (0..GUARD)
            .map(guard)
            .chain(bits.iter().copied())
            .chain((GUARD..2 * GUARD).map(guard));
        Lent {
            floats: bits.map(f32::from_bits).collect(),
        }
    }

    /// As a destination: signalling NaNs, each its own.
    fn spoiled(len: usize) -> Lent {
        let bits: Vec<u32> = (0..len as u32).map(|n| 0xFF90_0000 + n).collect();
        Lent::new(&bits)
    }

    fn at(&self) -> &[f32] {
        &self.floats[GUARD..self.floats.len() - GUARD]
    }

    fn at_mut(&mut self) -> &mut [f32] {
        let end = self.floats.len() - GUARD;
        &mut self.floats[GUARD..end]
    }

    /// The same to the last bit, guards too.
    fn is(&self, other: &Lent) -> bool {
        let bits = |lent: &Lent| {
            lent.floats
                .iter()
                .map(|x| x.to_bits())
                .collect::<Vec<u32>>()
        };
        bits(self) == bits(other)
    }
}

fn point_of(bits: &[u32]) -> Point {
    [f32::from_bits(bits[0]), f32::from_bits(bits[1])]
}

#[test]
fn place_agrees() {
    let lists = lists();
    for row in rows("place", 15000) {
        let [mode, size, cell, slot, subchannel, index, list, refusal, symbol, carrier] = row[..]
        else {
            panic!("{row:?}")
        };
        let setup = setup(mode, size, cell, &lists[list as usize]);
        let address = Address {
            slot,
            subchannel,
            index,
        };
        let carrier = carrier as i32;
        assert_eq!(
            setup.and_then(|setup| place(setup, address)),
            expected(refusal, Place { symbol, carrier }),
            "{row:?}"
        );
    }
}

#[test]
fn places_agree() {
    let lists = lists();
    for row in rows("places", 2400) {
        let [mode, size, cell, slot, subchannel, list, refusal] = row[..7] else {
            panic!("{row:?}")
        };
        let setup = setup(mode, size, cell, &lists[list as usize]);
        let table = setup.and_then(|setup| places(setup, slot, subchannel));
        assert_eq!(
            table.map(Vec::from),
            expected(refusal, row[7..].to_vec()),
            "{row:?}"
        );
    }
}

/// Of an unlisted mode nothing has a length.
#[test]
fn lengths_agree() {
    for row in rows("length", 300) {
        let [mode, size, points, grid] = row[..] else {
            panic!("{row:?}")
        };
        let lengths = Mode::try_from(mode).map_or((0, 0), |mode| {
            (points_len(mode, size), grid_len(mode, size))
        });
        assert_eq!(lengths, (points as usize, grid as usize), "{row:?}");
    }
}

#[test]
fn lit_lengths_agree() {
    for row in rows("lit", 2000) {
        let [mode, size, mask, points] = row[..] else {
            panic!("{row:?}")
        };
        let lit = Mode::try_from(mode).map_or(0, |mode| lit_points_len(mode, size, mask));
        assert_eq!(lit, points as usize, "{row:?}");
    }
}

#[test]
fn locate_agrees() {
    let lists = lists();
    for row in rows("locate", 19000) {
        let [mode, size, cell, symbol, carrier, list, refusal, kind, slot, subchannel, index] =
            row[..]
        else {
            panic!("{row:?}")
        };
        let content = match kind {
            0 => Content::Guard,
            1 => Content::Dc,
            2 => Content::Pilot,
            _ => Content::Data(Address {
                slot,
                subchannel,
                index,
            }),
        };
        let carrier = carrier as i32;
        let at = Place { symbol, carrier };
        let setup = setup(mode, size, cell, &lists[list as usize]);
        let located = setup.and_then(|setup| locate(setup, at));
        assert_eq!(located, expected(refusal, content), "{row:?}");
    }
}

/// A row `grid`; the points and places are those of the lit subchannels.
struct Grid {
    setup: Setup,
    pilots: Vec<u32>,
    mask: u32,
    slot: u32,
    pilot: Point,
    lit: Vec<u32>,
    points: Vec<u32>,
    places: Vec<u32>,
    ground: Lent,
    grid: Lent,
}

/// The floats that one subchannel has.
const LAID: usize = 96;

impl Grid {
    fn piloted(&self) -> Piloted<'_> {
        self.setup.with_pilots(&self.pilots)
    }

    /// Which of the lit subchannels it is.
    fn rank(&self, subchannel: u32) -> Option<usize> {
        self.lit.iter().position(|lit| *lit == subchannel)
    }

    /// The points of the lit subchannel of this rank.
    fn laid(&self, rank: usize) -> &[u32] {
        &self.points[LAID * rank..LAID * (rank + 1)]
    }

    /// Lays these bits, which are only read; an unlit subchannel is refused.
    fn lay(&self, subchannel: u32, bits: &[u32], grid: &mut Lent) {
        let points = Lent::new(bits);
        let refusal = if self.lit.contains(&subchannel) { 0 } else { 5 };
        assert_eq!(
            lay(
                self.piloted(),
                self.mask,
                self.slot,
                subchannel,
                points.at(),
                grid.at_mut()
            ),
            expected(refusal, ())
        );
        assert!(points.is(&Lent::new(bits)), "points {:?}", self.setup);
    }
}

fn grids() -> Vec<Grid> {
    let lists = lists();
    let read = |row: Vec<u32>| {
        let (lit, rest) = row[9..].split_at(row[8] as usize);
        let (points, rest) = rest.split_at(LAID * lit.len());
        let (places, rest) = rest.split_at(points.len() / 2);
        let (ground, grid) = rest.split_at(rest.len() / 2);
        Grid {
            setup: setup(row[0], row[1], row[2], &[]).unwrap().setup,
            pilots: lists[row[5] as usize].clone(),
            mask: row[3],
            slot: row[4],
            pilot: point_of(&row[6..8]),
            lit: lit.to_vec(),
            points: points.to_vec(),
            places: places.to_vec(),
            ground: Lent::new(ground),
            grid: Lent::new(grid),
        }
    };
    rows("grid", 35).into_iter().map(read).collect()
}

/// A grid of any floats with the ground laid on it.
fn grounded(of: &Grid) -> Lent {
    let mut grid = Lent::spoiled(of.ground.at().len());
    assert_eq!(
        ground(of.piloted(), of.mask, of.slot, of.pilot, grid.at_mut()),
        Ok(())
    );
    grid
}

#[test]
fn ground_keeps_every_bit() {
    for of in grids() {
        assert!(grounded(&of).is(&of.ground), "ground {:?}", of.setup);
    }
}

#[test]
fn a_lay_writes_its_own_floats_alone() {
    for of in grids() {
        for (rank, subchannel) in of.lit.iter().enumerate() {
            let mut grid = Lent::spoiled(of.grid.at().len());
            let mut expected = Lent::spoiled(of.grid.at().len());
            let places = &of.places[LAID / 2 * rank..];
            for (place, point) in places.iter().zip(of.laid(rank).chunks(2)) {
                let at = *place as usize;
                expected.at_mut()[at..at + 2].copy_from_slice(&point_of(point));
            }
            of.lay(*subchannel, of.laid(rank), &mut grid);
            assert!(grid.is(&expected), "lay {subchannel} {:?}", of.setup);
        }
    }
}

/// In any order with repeats: every bit turned over, but not when a subchannel comes last. The unlit ones leave nothing.
#[test]
fn ground_and_lays_give_the_grid() {
    let grids = grids();
    for row in rows("order", 35) {
        let (of, order) = (&grids[row[0] as usize], &row[1..]);
        let mut grid = grounded(of);
        for (n, subchannel) in order.iter().enumerate() {
            let turned = if order[n + 1..].contains(subchannel) {
                u32::MAX
            } else {
                0
            };
            let own = of.laid(of.rank(*subchannel).unwrap_or(0));
            let bits: Vec<u32> = own.iter().map(|x| x ^ turned).collect();
            of.lay(*subchannel, &bits, &mut grid);
        }
        assert!(grid.is(&of.grid), "lays {:?}", of.setup);
    }
}

/// With the lit subchannels' points in one row and no list of them: each subchannel is given the next 96 floats, which go
/// on to the next one where it is unlit.
#[test]
fn a_row_of_lit_points_is_laid() {
    for of in grids() {
        let (mut grid, points) = (grounded(&of), Lent::new(&of.points));
        let subchannels = points_len(of.setup.mode, of.setup.size) / LAID;
        let mut next = points.at().chunks(LAID).peekable();
        for subchannel in 0..subchannels as u32 {
            let Some(own) = next.peek() else { break };
            let laid = lay(
                of.piloted(),
                of.mask,
                of.slot,
                subchannel,
                own,
                grid.at_mut(),
            );
            if laid.is_ok() {
                next.next();
            } else {
                assert_eq!(laid, Err(Refusal::Subchannel), "{:?}", of.setup);
            }
        }
        assert!(next.next().is_none() && grid.is(&of.grid), "{:?}", of.setup);
    }
}

#[test]
fn empty_keeps_every_bit() {
    for of in grids() {
        let lit = lit_points_len(of.setup.mode, of.setup.size, of.mask);
        let mut back = Lent::spoiled(lit);
        assert_eq!(
            empty(of.piloted(), of.mask, of.slot, of.grid.at(), back.at_mut()),
            Ok(())
        );
        assert!(back.is(&Lent::new(&of.points)), "empty {:?}", of.setup);
    }
}

/// Over points of their own: those on later carriers keep them.
#[test]
fn empty_first_writes_the_points_of_these_carriers_alone() {
    let grids = grids();
    for row in rows("first", 1000) {
        let (of, carriers) = (&grids[row[0] as usize], row[1]);
        let mut back = Lent::spoiled(of.points.len());
        let mut expected = Lent::spoiled(of.points.len());
        for (n, place) in of.places.iter().enumerate() {
            if place / 2 < carriers {
                let point = point_of(&of.points[2 * n..]);
                expected.at_mut()[2 * n..2 * n + 2].copy_from_slice(&point);
            }
        }
        assert_eq!(
            empty_first(
                of.piloted(),
                of.mask,
                of.slot,
                carriers,
                of.grid.at(),
                back.at_mut()
            ),
            Ok(())
        );
        assert!(back.is(&expected), "{carriers} carriers {:?}", of.setup);
    }
}

#[test]
fn ground_refuses_and_writes_nothing() {
    let lists = lists();
    for row in rows("ground", 17000) {
        let [mode, size, cell, mask, slot, list, grid_len, refusal] = row[..] else {
            panic!("{row:?}")
        };
        let mut grid = Lent::spoiled(grid_len as usize);
        let setup = setup(mode, size, cell, &lists[list as usize]);
        assert_eq!(
            setup.and_then(|setup| ground(setup, mask, slot, [1.0, -1.0], grid.at_mut())),
            Err(refused(refusal)),
            "{row:?}"
        );
        assert!(grid.is(&Lent::spoiled(grid_len as usize)), "{row:?}");
    }
}

#[test]
fn lay_refuses_and_writes_nothing() {
    let lists = lists();
    for row in rows("lay", 35000) {
        let [mode, size, cell, mask, slot, subchannel, list, points_len, grid_len, refusal] =
            row[..]
        else {
            panic!("{row:?}")
        };
        let points = Lent::spoiled(points_len as usize);
        let mut grid = Lent::spoiled(grid_len as usize);
        let setup = setup(mode, size, cell, &lists[list as usize]);
        assert_eq!(
            setup.and_then(|setup| lay(setup, mask, slot, subchannel, points.at(), grid.at_mut())),
            Err(refused(refusal)),
            "{row:?}"
        );
        assert!(points.is(&Lent::spoiled(points_len as usize)), "{row:?}");
        assert!(grid.is(&Lent::spoiled(grid_len as usize)), "{row:?}");
    }
}

/// And empty_first as empty does, whatever the count.
#[test]
fn empty_refuses_and_writes_nothing() {
    let lists = lists();
    for row in rows("empty", 23000) {
        let [mode, size, cell, mask, slot, list, points_len, grid_len, refusal] = row[..] else {
            panic!("{row:?}")
        };
        let mut points = Lent::spoiled(points_len as usize);
        let grid = Lent::spoiled(grid_len as usize);
        let setup = setup(mode, size, cell, &lists[list as usize]);
        assert_eq!(
            setup.and_then(|setup| empty(setup, mask, slot, grid.at(), points.at_mut())),
            Err(refused(refusal)),
            "{row:?}"
        );
        for carriers in [0, 1, grid_len / 2, u32::MAX] {
            assert_eq!(
                setup.and_then(|setup| empty_first(
                    setup,
                    mask,
                    slot,
                    carriers,
                    grid.at(),
                    points.at_mut()
                )),
                Err(refused(refusal)),
                "{carriers} carriers {row:?}"
            );
        }
        assert!(points.is(&Lent::spoiled(points_len as usize)), "{row:?}");
        assert!(grid.is(&Lent::spoiled(grid_len as usize)), "{row:?}");
    }
}

/// Each call that takes one, on grids of FUSC.
#[test]
fn no_call_writes_to_a_list() {
    let of_fusc = |of: &Grid| of.setup.mode == Mode::Fusc;
    for of in grids().into_iter().filter(of_fusc) {
        let (kept, mut grid) = (of.pilots.clone(), grounded(&of));
        let mut back = Lent::spoiled(of.points.len());
        let at = place(of.piloted(), Address::default()).unwrap();
        locate(of.piloted(), at).unwrap();
        places(of.piloted(), of.slot, 31).unwrap();
        of.lay(31, of.laid(31), &mut grid);
        empty(of.piloted(), 0, of.slot, grid.at(), back.at_mut()).unwrap();
        empty_first(of.piloted(), 0, of.slot, 2048, grid.at(), back.at_mut()).unwrap();
        look(of.piloted(), 0, at.symbol, grid.at(), at.carrier).unwrap();
        assert_eq!(of.pilots, kept);
    }
}

/// What was seen as the row has it: kind, the point's bits, address.
fn numbers(seen: Seen) -> [u32; 6] {
    match seen {
        Seen::Nothing => [0; 6],
        Seen::Pilot([i, q]) => [2, i.to_bits(), q.to_bits(), 0, 0, 0],
        Seen::Data([i, q], of) => [
            3,
            i.to_bits(),
            q.to_bits(),
            of.slot,
            of.subchannel,
            of.index,
        ],
    }
}

#[test]
fn look_agrees() {
    let grids = grids();
    for row in rows("look", 5000) {
        let of = &grids[row[0] as usize];
        let seen = look(of.piloted(), of.mask, row[1], of.grid.at(), row[2] as i32).map(numbers);
        assert_eq!(
            seen.as_ref().map(|seen| &seen[..]),
            Ok(&row[3..]),
            "{row:?}"
        );
    }
}

#[test]
fn look_refuses() {
    let lists = lists();
    for row in rows("unseen", 23000) {
        let [mode, size, cell, mask, symbol, carrier, list, grid_len, refusal] = row[..] else {
            panic!("{row:?}")
        };
        let grid = Lent::spoiled(grid_len as usize);
        let setup = setup(mode, size, cell, &lists[list as usize]);
        let seen = setup.and_then(|setup| look(setup, mask, symbol, grid.at(), carrier as i32));
        assert_eq!(seen.map(numbers), Err(refused(refusal)), "{row:?}");
    }
}

/// Collisions as a row has them: count, then hits.
fn collisions(row: &[u32]) -> Collisions {
    let mut hits = [false; 48];
    for (hit, number) in hits.iter_mut().zip(&row[1..]) {
        *hit = *number == 1;
    }
    Collisions {
        hits,
        count: row[0],
    }
}

#[test]
fn collisions_agree() {
    for row in rows("ofusc", 3000) {
        let found = ofusc_collisions(row[0], row[1], row[2], row[3], row[4]);
        assert_eq!(found, expected(row[5], collisions(&row[6..])), "{row:?}");
    }
    for row in rows("amc", 3000) {
        let found = amc_collisions(row[0], row[1]);
        assert_eq!(found, expected(row[2], collisions(&row[3..])), "{row:?}");
    }
}

/// A plan as a row has it: count, size, and four numbers of each place.
fn plan_of(row: &[u32]) -> Plan {
    let mut zones = [Zone::default(); 8];
    for (zone, four) in zones.iter_mut().zip(row[2..34].chunks(4)) {
        *zone = Zone {
            mode: four[0],
            cell: four[1],
            slots: four[2],
            mask: four[3],
        };
    }
    Plan {
        count: row[0],
        size: row[1],
        zones,
    }
}

#[test]
fn plans_are_read() {
    for row in rows("read", 2500) {
        let (bytes, answer) = row[1..].split_at(row[0] as usize);
        let bytes: Vec<u8> = bytes.iter().map(|byte| *byte as u8).collect();
        assert_eq!(
            plan_read(&bytes),
            expected(answer[0], plan_of(&answer[1..])),
            "{row:?}"
        );
    }
}

#[test]
fn plans_are_written() {
    for row in rows("write", 1500) {
        let (request, answer) = row.split_at(35);
        // The reference's destination holds 238 before.
        let mut dest = vec![238u8; answer.len() - 2];
        let written = plan_write(&plan_of(&request[1..]), &mut dest[..request[0] as usize]);
        assert_eq!(written, expected(answer[0], answer[1] as usize), "{row:?}");
        assert!(
            dest.iter()
                .map(|byte| *byte as u32)
                .eq(answer[2..].iter().copied()),
            "{row:?}"
        );
    }
}

/// A list of bursts, the zone that it is for, and all that is asked about it.
#[test]
fn bursts_agree() {
    for row in rows("bursts", 15000) {
        let [mode, size, cell, slots, mask, slot, subchannel, count] = row[..8] else {
            panic!("{row:?}")
        };
        let (numbers, answer) = row[8..].split_at(4 * count as usize);
        let four = |four: &[u32]| Burst {
            subchannel: four[0],
            subchannels: four[1],
            slot: four[2],
            slots: four[3],
        };
        let bursts: Vec<Burst> = numbers.chunks(4).map(four).collect();
        let kept = bursts.clone();
        let zone = Zone {
            mode,
            cell,
            slots,
            mask,
        };
        let [check, of_owner, of_owners, owner, looked] = answer[..5] else {
            panic!("{row:?}")
        };
        let position = |number: u32| (number != 64).then_some(number as usize);
        let owner = Owner {
            burst: position(owner),
            looked: looked as usize,
        };
        let owners: Vec<Option<usize>> = answer[5..].iter().copied().map(position).collect();
        assert_eq!(
            bursts_check(size, zone, &bursts),
            expected(check, ()),
            "{row:?}"
        );
        assert_eq!(
            burst_owner(size, zone, slot, subchannel, &bursts),
            expected(of_owner, owner),
            "{row:?}"
        );
        assert_eq!(
            burst_owners(size, zone, slot, &bursts).map(Vec::from),
            expected(of_owners, owners),
            "{row:?}"
        );
        assert_eq!(bursts, kept, "{row:?}");
    }
}

/// The names of one of the header's enums, in small letters without underscores, and their numbers.
fn enumerators(of: &str) -> Vec<(String, u32)> {
    let header = include_str!("../../include/bellpulsar.h");
    let (_, body) = header.split_once(&format!("enum {of} {{\n")).unwrap();
    let (body, _) = body.split_once("\n};").unwrap();
    let read = |line: &str| {
        let (name, rest) = line.trim().split_once(" = ").unwrap();
        let number = rest.split([',', ' ']).next().unwrap();
        (
            name.to_lowercase().replace('_', ""),
            number.parse().unwrap(),
        )
    };
    body.lines().map(read).collect()
}

#[test]
fn refusals_are_the_headers() {
    let name = |refusal: &Refusal| format!("bprefused{refusal:?}").to_lowercase();
    let mut all = vec![("bpaccepted".to_string(), 0)];
    all.extend(
        Refusal::ALL
            .iter()
            .map(|refusal| (name(refusal), refusal.number())),
    );
    assert_eq!(all, enumerators("bp_refusal"));
    assert_eq!(
        Refusal::Index.to_string(),
        "refused 6: Is the index below 48?"
    );
}

/// In the header AMC alone stands for AMC 6x1.
#[test]
fn modes_are_the_headers() {
    let name = |mode: &Mode| format!("bp{mode:?}").to_lowercase().replace("6x1", "");
    let all: Vec<(String, u32)> = Mode::ALL
        .iter()
        .map(|mode| (name(mode), mode.number()))
        .collect();
    assert_eq!(all, enumerators("bp_mode"));
}

#[test]
fn modes_have_names() {
    let names = [
        "pusc-dl", "pusc-ul", "ofusc", "amc-6x1", "amc-2x3", "amc-3x2", "amc-1x6", "fusc",
    ];
    for (n, mode) in Mode::ALL.iter().enumerate() {
        assert_eq!(mode.to_string(), names[n]);
        assert_eq!(names[n].parse(), Ok(*mode));
        assert_eq!(n.to_string().parse(), Ok(*mode));
    }
    for word in [
        "",
        "8",
        "-1",
        "+2",
        "02",
        " 2",
        "4294967298",
        "amc",
        "OFUSC",
        "amc-6x1 ",
    ] {
        assert_eq!(word.parse::<Mode>(), Err(Refusal::Mode), "{word}");
    }
}
