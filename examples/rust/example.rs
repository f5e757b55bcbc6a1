//! One use of each call:
//!
//!     point MODE SIZE CELL SLOT SUBCHANNEL INDEX       where a point is placed, and what is found there
//!     carrier MODE SIZE CELL SYMBOL CARRIER            what a carrier, counted from DC, holds in a symbol
//!     places MODE SIZE CELL SLOT SUBCHANNEL            where the points of a subchannel lie, and their places in the
//!                                                      slot's grid
//!     collisions SIZE CELL SUBCHANNEL CELL SUBCHANNEL  the groups of optional FUSC in which the one subchannel and the
//!                                                      other share a carrier
//!     collisions CELL CELL                             the indices that both cells put on one carrier of one symbol in
//!                                                      every subchannel of AMC
//!     slot MODE SIZE CELL MASK SLOT                    fills a slot's grid in two moves, lays the last lit
//!                                                      subchannel again, and takes all points off the grid
//!     fusc CELL SLOT SUBCHANNEL INDEX FIRST STEP       FUSC with the pilot list FIRST, FIRST + STEP, ..: places a point,
//!                                                      fills the slot's grid, counts what stands on its
//!                                                      carriers, and takes all points off it
//!     capture MODE SIZE CELL MASK SLOT                 takes a slot's points off its grid while a capture delivers
//!                                                      it, half a symbol at a time
//!     plan BYTE..                                      reads a zone plan (each byte two hex digits),
//!                                                      prints its zones, and writes it again
//!     bursts MODE SIZE CELL SLOTS MASK SLOT SUBCHANNEL NUMBER..
//!                                                      checks a list of bursts (first subchannel, how many, first
//!                                                      slot, how many of each), and tells whose a subchannel in a
//!                                                      slot is and whose all subchannels of that slot are

use bellpulsar::{Address, Burst, Collisions, Content, Mode, Piloted, Place};
use bellpulsar::{Refusal, Seen, Setup, Zone};
use std::io::Write;
use std::num::{IntErrorKind, ParseIntError};
use std::process::exit;

const USAGE: &str = "usage: point MODE SIZE CELL SLOT SUBCHANNEL INDEX
       carrier MODE SIZE CELL SYMBOL CARRIER
       places MODE SIZE CELL SLOT SUBCHANNEL
       collisions SIZE CELL SUBCHANNEL CELL SUBCHANNEL, or collisions CELL CELL
       slot MODE SIZE CELL MASK SLOT
       fusc CELL SLOT SUBCHANNEL INDEX FIRST STEP
       capture MODE SIZE CELL MASK SLOT
       plan BYTE..
       bursts MODE SIZE CELL SLOTS MASK SLOT SUBCHANNEL [SUBCHANNEL SUBCHANNELS SLOT SLOTS]..";

/// Ends a program that is misused. (eprintln! would panic where nothing can be written.)
fn misused(text: &str) -> ! {
    let _ = writeln!(std::io::stderr(), "{text}");
    exit(2)
}

fn usage() -> ! {
    misused(USAGE)
}

fn no_number(word: &str) -> ! {
    misused(&format!("not a number: {word}"))
}

/// A number from a word: the nearest that 64 bits hold.
fn number(word: &str) -> i64 {
    if word.starts_with('+') {
        no_number(word)
    }
    word.parse()
        .unwrap_or_else(|error: ParseIntError| match error.kind() {
            IntErrorKind::PosOverflow => i64::MAX,
            IntErrorKind::NegOverflow => i64::MIN,
            _ => no_number(word),
        })
}

/// A field's number. One that 32 bits do not hold, a negative one too, is the largest that they do: it is out of every
/// range.
fn field(word: &str) -> u32 {
    number(word).try_into().unwrap_or(u32::MAX)
}

/// A carrier's number, which is signed. One that 32 bits do not hold is the nearest that they do: no size has it.
fn signed_field(word: &str) -> i32 {
    number(word).clamp(i32::MIN.into(), i32::MAX.into()) as i32
}

/// A byte from two hex digits.
fn byte(word: &str) -> u8 {
    if word.len() != 2 || !word.bytes().all(|c| c.is_ascii_hexdigit()) {
        misused(&format!("not two hex digits: {word}"))
    }
    u8::from_str_radix(word, 16).unwrap()
}

/// A mode that is not listed is refused here, before every other question.
fn setup(mode: u32, size: u32, cell: u32) -> Result<Setup, Refusal> {
    let mode = Mode::try_from(mode)?;
    Ok(Setup { mode, size, cell })
}

/// A burst from its four numbers.
fn burst(four: &[u32]) -> Burst {
    Burst {
        subchannel: four[0],
        subchannels: four[1],
        slot: four[2],
        slots: four[3],
    }
}

fn point<'a>(setup: impl Into<Piloted<'a>>, address: Address) -> Result<String, Refusal> {
    let setup = setup.into();
    let at = bellpulsar::place(setup, address)?;
    let content = bellpulsar::locate(setup, at)?;
    let mut text = format!("symbol {} carrier {}\n", at.symbol, at.carrier);
    if let Content::Data(of) = content {
        text += &format!(
            "holds slot {} subchannel {} index {}\n",
            of.slot, of.subchannel, of.index
        );
    }
    Ok(text)
}

fn carrier(setup: Setup, at: Place) -> Result<String, Refusal> {
    Ok(match bellpulsar::locate(setup, at)? {
        Content::Guard => "guard\n".to_string(),
        Content::Dc => "DC\n".to_string(),
        Content::Pilot => "pilot\n".to_string(),
        Content::Data(of) => format!(
            "data slot {} subchannel {} index {}\n",
            of.slot, of.subchannel, of.index
        ),
    })
}

fn places(setup: Setup, slot: u32, subchannel: u32) -> Result<String, Refusal> {
    let mut text = String::new();
    for (index, place) in (0..).zip(bellpulsar::places(setup, slot, subchannel)?) {
        let address = Address {
            slot,
            subchannel,
            index,
        };
        let Place { symbol, carrier } = bellpulsar::place(setup, address)?;
        text += &format!("index {index} symbol {symbol} carrier {carrier} place {place}\n");
    }
    Ok(text)
}

fn collisions(what: &str, found: Result<Collisions, Refusal>) -> Result<String, Refusal> {
    let found = found?;
    let hit: String = (0..48)
        .filter(|&k| found.hits[k])
        .map(|k| format!(" {k}"))
        .collect();
    Ok(format!("{what}{hit}\ncount {}\n", found.count))
}

/// What the grid holds where point 0 of a subchannel belongs.
fn point_of(
    setup: Setup,
    mask: u32,
    slot: u32,
    subchannel: u32,
    grid: &[f32],
) -> Result<String, Refusal> {
    let address = Address {
        slot,
        subchannel,
        index: 0,
    };
    let Place { symbol, carrier } = bellpulsar::place(setup, address)?;
    let what = match bellpulsar::look(setup, mask, symbol, grid, carrier)? {
        Seen::Data([i, q], of) => format!(
            "point ({i}, {q}) of slot {} subchannel {} index {}",
            of.slot, of.subchannel, of.index
        ),
        _ => format!("nothing, subchannel {subchannel} is unlit"),
    };
    Ok(format!("symbol {symbol} carrier {carrier}: {what}\n"))
}

fn slot(setup: Setup, mask: u32, slot: u32) -> Result<String, Refusal> {
    const OWN: usize = 96; // the floats of one subchannel's points
    let Setup { mode, size, .. } = setup;
    let points_len = bellpulsar::lit_points_len(mode, size, mask);
    let mut points: Vec<f32> = (1..=points_len / 2)
        .flat_map(|n| [n as f32, -(n as f32)])
        .collect();
    let mut grid = vec![0.0; bellpulsar::grid_len(mode, size)];

    // The ground once; then the subchannels. One that is unlit is refused, and the next takes these points.
    bellpulsar::ground(setup, mask, slot, [1.0, 0.0], &mut grid)?;
    let (mut left, mut next, mut last) = (&points[..], 0, 0);
    while !left.is_empty() {
        match bellpulsar::lay(setup, mask, slot, next, &left[..OWN], &mut grid) {
            Ok(()) => (last, left) = (next, &left[OWN..]),
            Err(Refusal::Subchannel) => {}
            Err(refusal) => return Err(refusal),
        }
        next += 1;
    }
    let lit = points_len / OWN;
    let count = bellpulsar::points_len(mode, size) / OWN;
    let mut text = format!("{lit} of {count} subchannels lit\n");
    text += &point_of(setup, mask, slot, 0, &grid)?;
    text += &point_of(setup, mask, slot, count as u32 - 1, &grid)?;

    // Other points for the last one that is lit: pilots, zeros and the other subchannels stay as they are.
    let before = grid.clone();
    let own = &mut points[points_len - OWN..];
    own.iter_mut().for_each(|float| *float = -*float);
    bellpulsar::lay(setup, mask, slot, last, own, &mut grid)?;
    let changed = grid.iter().zip(&before).filter(|(a, b)| a != b).count();
    let floats = grid.len();
    text += &format!("subchannel {last} again: {changed} of {floats} floats changed\n");
    text += &point_of(setup, mask, slot, last, &grid)?;

    let mut back = vec![0.0; points_len];
    bellpulsar::empty(setup, mask, slot, &grid, &mut back)?;
    let all = if back == points { "all" } else { "not all" };
    Ok(text + &format!("{} points: {all} back\n", points_len / 2))
}

/// The same list for each call: a grid is emptied and looked at with the one that it was filled with.
fn fusc(setup: Piloted, address: Address) -> Result<String, Refusal> {
    let Setup { mode, size, .. } = setup.setup;
    let (mask, slot) = (0, address.slot);
    let mut text = point(setup, address)?;
    let points: Vec<f32> = (1..=bellpulsar::points_len(mode, size) / 2)
        .flat_map(|n| [n as f32, -(n as f32)])
        .collect();
    let mut grid = vec![0.0; bellpulsar::grid_len(mode, size)];
    bellpulsar::ground(setup, mask, slot, [1.0, 0.0], &mut grid)?;
    for (subchannel, own) in (0..).zip(points.chunks(96)) {
        bellpulsar::lay(setup, mask, slot, subchannel, own, &mut grid)?;
    }

    let (mut pilots, mut data, mut nothing) = (0, 0, 0);
    let half = size as i32 / 2;
    for carrier in -half..half {
        match bellpulsar::look(setup, mask, slot, &grid, carrier)? {
            Seen::Pilot(_) => pilots += 1,
            Seen::Data(..) => data += 1,
            Seen::Nothing => nothing += 1,
        }
    }
    text += &format!("{pilots} pilots, {data} points, {nothing} carriers with nothing\n");

    let mut back = vec![0.0; points.len()];
    bellpulsar::empty(setup, mask, slot, &grid, &mut back)?;
    let all = if back == points { "all" } else { "not all" };
    Ok(text + &format!("{} points: {all} back\n", points.len() / 2))
}

/// What is taken off the arriving grid is held to what `empty` takes off the whole one.
fn capture(setup: Setup, mask: u32, slot: u32) -> Result<String, Refusal> {
    let Setup { mode, size, .. } = setup;
    let sent: Vec<f32> = (1..=bellpulsar::grid_len(mode, size))
        .map(|n| n as f32)
        .collect();
    let mut whole = vec![0.0; bellpulsar::lit_points_len(mode, size, mask)];
    bellpulsar::empty(setup, mask, slot, &sent, &mut whole)?;

    // The grid may hold anything where nothing has arrived, here -1: the points that are still to come stay 0.
    let (mut grid, mut points) = (vec![-1.0; sent.len()], vec![0.0; whole.len()]);
    let (all, half) = (sent.len() / 2, size as usize / 2);
    let mut text = String::new();
    for carriers in (half..=all).step_by(half) {
        grid[..2 * carriers].copy_from_slice(&sent[..2 * carriers]);
        bellpulsar::empty_first(setup, mask, slot, carriers as u32, &grid, &mut points)?;
        let there = points.chunks(2).filter(|point| point[0] != 0.0).count();
        let total = points.len() / 2;
        text += &format!("{carriers} of {all} carriers: {there} of {total} points\n");
    }
    let not = if points == whole { "" } else { "not " };
    Ok(text + &format!("points {not}as emptied at once\n"))
}

fn plan(bytes: &[u8]) -> Result<String, Refusal> {
    let plan = bellpulsar::plan_read(bytes)?;
    let mut again = [0; 128];
    let written = bellpulsar::plan_write(&plan, &mut again)?;
    let mut text = format!("size {}\n", plan.size);
    for zone in &plan.zones[..plan.count as usize] {
        text += &format!(
            "mode {} cell {} slots {} mask {}\n",
            zone.mode, zone.cell, zone.slots, zone.mask
        );
    }
    let bytes: String = again[..written]
        .iter()
        .map(|byte| format!(" {byte:02X}"))
        .collect();
    Ok(text + &format!("bytes{bytes}\n"))
}

fn owned_by(burst: Option<usize>) -> String {
    burst.map_or("no burst".to_string(), |position| {
        format!("burst {position}")
    })
}

fn bursts(
    size: u32,
    zone: Zone,
    slot: u32,
    subchannel: u32,
    list: &[Burst],
) -> Result<String, Refusal> {
    bellpulsar::bursts_check(size, zone, list)?;
    let owner = bellpulsar::burst_owner(size, zone, slot, subchannel, list)?;
    let owners = bellpulsar::burst_owners(size, zone, slot, list)?;
    let (count, looked) = (list.len(), owner.looked);
    let mut text = format!("{count} bursts\nslot {slot} subchannel {subchannel}: ");
    text += &format!("{}, {looked} looked at\n", owned_by(owner.burst));

    // The row has a place for each of 192 subchannels; the mode has as many as there are points for.
    let mut first = 0;
    let subchannels = bellpulsar::points_len(zone.mode.try_into()?, size) / 96;
    for run in owners[..subchannels].chunk_by(|a, b| a == b) {
        let last = first + run.len() - 1;
        text += &format!("subchannels {first} to {last}: {}\n", owned_by(run[0]));
        first = last + 1;
    }
    Ok(text)
}

/// What an example prints.
fn run(name: &str, words: &[String]) -> Result<String, Refusal> {
    match (name, words) {
        ("plan", bytes) => plan(&bytes.iter().map(|word| byte(word)).collect::<Vec<u8>>()),
        ("carrier", [mode, size, cell, symbol, at]) => {
            let [mode, size, cell, symbol] = [mode, size, cell, symbol].map(|word| field(word));
            let at = Place {
                symbol,
                carrier: signed_field(at),
            };
            carrier(setup(mode, size, cell)?, at)
        }
        _ => {
            let fields: Vec<u32> = words.iter().map(|word| field(word)).collect();
            run_with(name, &fields)
        }
    }
}

/// The same of those whose words are all fields.
fn run_with(name: &str, fields: &[u32]) -> Result<String, Refusal> {
    match (name, fields) {
        ("point", &[mode, size, cell, slot, subchannel, index]) => point(
            setup(mode, size, cell)?,
            Address {
                slot,
                subchannel,
                index,
            },
        ),
        ("places", &[mode, size, cell, slot, subchannel]) => {
            places(setup(mode, size, cell)?, slot, subchannel)
        }
        ("collisions", &[size, cell_a, subchannel_a, cell_b, subchannel_b]) => collisions(
            "groups",
            bellpulsar::ofusc_collisions(size, cell_a, subchannel_a, cell_b, subchannel_b),
        ),
        ("collisions", &[cell_a, cell_b]) => {
            collisions("indices", bellpulsar::amc_collisions(cell_a, cell_b))
        }
        ("slot", &[mode, size, cell, mask, number]) => slot(setup(mode, size, cell)?, mask, number),
        ("fusc", &[cell, slot, subchannel, index, first, step]) => {
            let pilots: Vec<u32> = (0..166u32)
                .map(|n| first.wrapping_add(n.wrapping_mul(step)))
                .collect();
            let address = Address {
                slot,
                subchannel,
                index,
            };
            let setup = Setup {
                mode: Mode::Fusc,
                size: 2048,
                cell,
            };
            fusc(setup.with_pilots(&pilots), address)
        }
        ("capture", &[mode, size, cell, mask, slot]) => {
            capture(setup(mode, size, cell)?, mask, slot)
        }
        ("bursts", &[mode, size, cell, slots, mask, slot, subchannel, ref list @ ..])
            if list.len() % 4 == 0 =>
        {
            let zone = Zone {
                mode,
                cell,
                slots,
                mask,
            };
            let list: Vec<Burst> = list.chunks(4).map(burst).collect();
            bursts(size, zone, slot, subchannel, &list)
        }
        _ => usage(),
    }
}

fn main() {
    let words: Vec<String> = std::env::args_os()
        .skip(1)
        .map(|word| word.into_string().unwrap_or_else(|_| misused("not text")))
        .collect();
    let (name, words) = words.split_first().unwrap_or_else(|| usage());
    let (text, status) = match run(name, words) {
        Ok(text) => (text, 0),
        Err(refusal) => (format!("{refusal}\n"), 1),
    };
    // print! would panic where nobody reads, or nothing more can be written.
    let written = std::io::stdout().write_all(text.as_bytes());
    exit(if written.is_ok() { status } else { 2 })
}
