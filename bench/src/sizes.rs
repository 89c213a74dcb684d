//! What the compared calls and events reached with each set size. All that can be reached is printed, zeros too, so that a reader sees what
//! was never tried.

use crate::broken::{each_write, Held, Write, Writer};
use crate::calls::{Machine, BAD_SIZE, REFUSED};
use crate::layout;
use crate::machine::{base_allowed, length_allowed, memory_unit, Outcome, Reservation, State, DEFAULT_SET, LARGEST_SET, SMALLEST_SET};
use crate::reached::cell;

const ALLOWED: usize = 10;

/// Those of one allowed size.
#[derive(Default)]
struct Counts {
    calls: u64,
    /// Writes of harts by where they are, of a set that another hart holds: with their last byte just below it, onto its first byte, between,
    /// onto its last byte, with their first byte just above it.
    places: [u64; 5],
    /// Reservations that a write of another hart broke though it touched no byte that the LR read.
    by_set_alone: u64,
    /// Writes of harts that broke reservations of two sets.
    two_sets: u64,
    /// Device writes into a set that is held, onto no byte that the LR read.
    device_beside: u64,
    /// SCs that stored onto no byte that the LR read.
    sc_elsewhere: u64,
    /// SCs that failed though their hart held a reservation.
    sc_outside: u64,
    refused: Refused,
}

/// Calls refused by 1.
#[derive(Default)]
struct Refused {
    length: u64,
    base: u64,
    both: u64,
    /// Of these, the ones that sets of 64 would have allowed.
    by_size: u64,
}

/// Whether a size is of a kind that the kinds before it don't have.
type Kind = fn(u64) -> bool;

/// Kinds of sizes that aren't allowed.
const NOT_ALLOWED: [(&str, Kind); 6] = [
    ("0", |size| size == 0),
    ("1, 2 or 4", |size| size < SMALLEST_SET && size.is_power_of_two()),
    ("3, 5, 6 or 7", |size| size < SMALLEST_SET),
    ("no power of two between", |size| size < LARGEST_SET),
    ("a power of two above", |size| size.is_power_of_two()),
    ("any other above", |_| true),
];

/// Calls on machines with a size that isn't allowed, all refused by 1.
#[derive(Clone, Copy, Default)]
struct BadSize {
    /// Length and base are what they would have to be, were the size allowed: so nothing else is wrong with them.
    fits: u64,
    /// They are so for sets of 64 alone.
    fits_64: u64,
    others: u64,
}

#[derive(Default)]
pub struct Sizes {
    allowed: [Counts; ALLOWED],
    not_allowed: [BadSize; NOT_ALLOWED.len()],
}

fn size_of(n: usize) -> u64 {
    SMALLEST_SET << n
}

/// The counts of an allowed size. It doesn't go by what the machine allows, so that one that allows too much is compared too, and found.
fn index(size: u64) -> Option<usize> {
    (0..ALLOWED).find(|&n| size_of(n) == size)
}

impl Sizes {
    /// Counts a call, which changes neither set size nor base nor length.
    pub fn count_call(&mut self, machine: &Machine, answer: u64) {
        if machine.state.len() != layout::SIZE || answer == BAD_SIZE {
            return;
        }
        let (size, base, length) = (layout::get(&machine.state, layout::SET_SIZE), machine.base, machine.memory.len());
        let by_itself = base_allowed(base, DEFAULT_SET) && length_allowed(length, DEFAULT_SET);
        let Some(n) = index(size) else {
            let kind = NOT_ALLOWED.iter().position(|(_, is)| is(size)).expect("the last one takes all");
            let (counts, unit) = (&mut self.not_allowed[kind], memory_unit(size));
            *match by_itself {
                true if base % unit == 0 && (length as u64).is_multiple_of(unit) => &mut counts.fits,
                true => &mut counts.fits_64,
                false => &mut counts.others,
            } += 1;
            return;
        };
        self.allowed[n].calls += 1;
        if answer == REFUSED + 1 {
            let refused = &mut self.allowed[n].refused;
            *match (length_allowed(length, size), base_allowed(base, size)) {
                (false, true) => &mut refused.length,
                (true, false) => &mut refused.base,
                (false, false) => &mut refused.both,
                // Their sum is too high for the 32-bit kind, which `kinds` counts.
                (true, true) => return,
            } += 1;
            refused.by_size += by_itself as u64;
        }
    }

    /// Counts events, one after another.
    pub fn count_events(&mut self, state: &State, base: u64, memory: &[u8], events: &[u8]) {
        let (size, count) = (state.set_size, state.count);
        each_write(state, base, memory, events, |write, held, outcome| {
            // Else all of them were refused.
            if let Some(n) = index(size) {
                self.allowed[n].count_write(write, held, count, size, outcome);
            }
        });
    }

    pub fn print(&self) {
        println!("  by set size, single events: writes of harts about sets that another hart holds (their last byte just below, onto the first byte,");
        println!("  between, onto the last byte, their first byte just above); reservations that they broke by the set alone, onto no byte that the LR");
        println!("  read; those that broke two sets; device writes into a held set beside the LR's bytes; SCs that stored onto no byte that their LR");
        println!("  read; SCs that failed outside the set that their hart held:");
        self.print_table(
            &["calls", "below", "first", "between", "last", "above", "set alone", "two sets", "device", "SC stored", "SC failed"],
            |counts, n| {
                let size = counts.0;
                let Counts { calls, places, by_set_alone, two_sets, device_beside, sc_elsewhere, sc_outside, .. } = counts.1;
                // At most 16 bytes are written at once.
                match n {
                    0 => cell(true, Some(calls)),
                    n @ 1..=5 => cell(true, Some(&places[n - 1])),
                    6 => cell(true, Some(by_set_alone)),
                    7 => cell(size < 16, Some(two_sets).filter(|&&count| count > 0)),
                    8 => cell(true, Some(device_beside)),
                    9 => cell(true, Some(sc_elsewhere)),
                    _ => cell(true, Some(sc_outside)),
                }
            },
        );
        println!(
            "  by set size, calls refused by 1: for their length, their base, both; of these the ones that sets of 64 would have allowed:"
        );
        self.print_table(&["length", "base", "both", "not by 64"], |(size, Counts { refused, .. }), n| match n {
            0 => cell(true, Some(&refused.length)),
            1 => cell(true, Some(&refused.base)),
            2 => cell(true, Some(&refused.both)),
            _ => cell(size > 64, Some(&refused.by_size).filter(|&&count| count > 0)),
        });
        println!("  calls refused by 1 for a set size that isn't allowed, by what length and base fit: the size, 64 alone, neither:");
        println!("    {:<24} {:>9} {:>9} {:>9}", "", "the size", "64 alone", "neither");
        for (n, ((name, _), BadSize { fits, fits_64, others })) in NOT_ALLOWED.iter().zip(&self.not_allowed).enumerate() {
            // What fits 64 fits the first three kinds, which are below it.
            let fits_64 = cell(n > 2, Some(fits_64).filter(|&&count| count > 0));
            println!("    {name:<24} {fits:>9} {fits_64:>9} {others:>9}");
        }
    }

    fn print_table(&self, columns: &[&str], cell: impl Fn((u64, &Counts), usize) -> String) {
        print!("    {:<6}", "");
        columns.iter().for_each(|column| print!(" {column:>9}"));
        println!();
        for (n, counts) in self.allowed.iter().enumerate() {
            print!("    {:<6}", size_of(n));
            (0..columns.len()).for_each(|column| print!(" {:>9}", cell((size_of(n), counts), column)));
            println!();
        }
    }
}

impl Counts {
    /// `held` are the reservations before an event that would write.
    fn count_write(&mut self, write: &Write, held: &Held, count: usize, size: u64, outcome: Outcome) {
        let broke = match outcome {
            Outcome::Trap(_) => return,
            Outcome::Sc { success: false, .. } => {
                self.sc_outside += write.hart.is_some_and(|hart| held[hart].is_some()) as u64;
                return;
            }
            Outcome::Sc { success: true, broke } => {
                let own = write.hart.and_then(|hart| held[hart]).expect("an SC that stores has a reservation");
                self.sc_elsewhere += !write.touches_read(own) as u64;
                broke
            }
            Outcome::Retired { broke } => broke,
        };
        let used = held[..count].iter().enumerate().filter(|&(hart, _)| Some(hart) != write.hart);
        let others: Vec<(usize, Reservation)> = used.filter_map(|(hart, r)| r.map(|r| (hart, r))).collect();
        if write.writer == Writer::Device {
            self.device_beside += others.iter().any(|&(_, r)| write.touches_set(r, size) && !write.touches_read(r)) as u64;
            return;
        }
        for (place, number) in self.places.iter_mut().enumerate() {
            *number += others.iter().any(|&(_, r)| place_of(write, r.addr - r.addr % size, size).contains(&Some(place))) as u64;
        }
        let lost = others.iter().filter(|(hart, _)| broke >> hart & 1 == 1);
        self.by_set_alone += lost.clone().filter(|(_, r)| !write.touches_read(*r)).count() as u64;
        let sets: std::collections::BTreeSet<u64> = lost.map(|(_, r)| r.addr / size).collect();
        self.two_sets += (sets.len() > 1) as u64;
    }
}

/// Where a write is of the set from `first` on, as `Counts` has the places; it can be onto the first byte and onto the last one.
fn place_of(write: &Write, first: u64, size: u64) -> [Option<usize>; 2] {
    let (end, above) = (write.addr + write.size, first + size);
    let (onto_first, onto_last) = (write.touches(first, 1), write.touches(above - 1, 1));
    match (onto_first, onto_last) {
        (false, false) if end == first => [Some(0), None],
        (false, false) if write.addr == above => [Some(4), None],
        (false, false) if write.touches(first, size) => [Some(2), None],
        _ => [onto_first.then_some(1), onto_last.then_some(3)],
    }
}
