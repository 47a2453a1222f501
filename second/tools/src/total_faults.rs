//! Totals that are wrong for the superblocks they are handed in with.

use hoard::{State, Superblock, Totals, CLASSES, GLOBAL_HEAP, HEAPS};

use crate::make_state::Kind;
use crate::xorshift::Xorshift;

/// Kinds with a fault of totals that any sound state can have; one above P needs a
/// setup of fewer than eight processors.
pub const TOTAL_FAULTS: [Kind; 8] = [
    Kind::TotalMore,
    Kind::TotalLess,
    Kind::TotalCancel,
    Kind::TotalAboveP,
    Kind::TotalHeap0,
    Kind::TotalSuperblocksOnly,
    Kind::TotalLiveOnly,
    Kind::TotalWide,
];

/// Which of the two totals.
#[derive(Clone, Copy, Debug, PartialEq, Eq)]
enum List {
    Superblocks,
    Live,
}

const LISTS: [List; 2] = [List::Superblocks, List::Live];

/// A heap and class.
#[derive(Clone, Copy, Debug, PartialEq, Eq)]
struct Pair {
    heap: usize,
    class: usize,
}

/// One total.
#[derive(Clone, Copy, Debug, PartialEq, Eq)]
struct Entry {
    list: List,
    pair: Pair,
}

impl Entry {
    fn get(self, totals: &Totals) -> u16 {
        let Pair { heap, class } = self.pair;
        match self.list {
            List::Superblocks => totals.superblocks[heap][class].into(),
            List::Live => totals.live[heap][class],
        }
    }

    /// Sets the total to a number, of which it keeps what fits its width.
    fn set(self, totals: &mut Totals, number: u16) {
        let Pair { heap, class } = self.pair;
        match self.list {
            List::Superblocks => totals.superblocks[heap][class] = number as u8,
            List::Live => totals.live[heap][class] = number,
        }
    }

    /// Adds to the total, round past its widest number and 0.
    fn shift(self, totals: &mut Totals, by: i16) {
        self.set(totals, self.get(totals).wrapping_add_signed(by));
    }
}

/// Every total, heaps then classes.
fn entries() -> impl Iterator<Item = Entry> {
    pairs().flat_map(|pair| LISTS.map(|list| Entry { list, pair }))
}

fn pairs() -> impl Iterator<Item = Pair> {
    (0..HEAPS).flat_map(|heap| (0..CLASSES).map(move |class| Pair { heap, class }))
}

/// Makes the right totals of a sound state wrong, in the way that the kind names.
pub fn break_totals(kind: Kind, random: &mut Xorshift, state: &mut State) {
    let right = state.control.totals.clone();
    // Drawn numbers may happen to be the right ones.
    while state.control.totals == right {
        break_once(kind, random, state);
    }
}

fn break_once(kind: Kind, random: &mut Xorshift, state: &mut State) {
    match kind {
        Kind::TotalLess => one_less(random, state),
        Kind::TotalCancel => cancel(random, state),
        Kind::TotalAboveP => above_p(random, state),
        Kind::TotalHeap0 => heap_0(random, state),
        Kind::TotalSuperblocksOnly => one_list(List::Superblocks, random, state),
        Kind::TotalLiveOnly => one_list(List::Live, random, state),
        Kind::TotalWide => wide(random, state),
        _ => any_entry(random, state).shift(&mut state.control.totals, 1),
    }
}

/// A heap and class with a superblock, or any of the setup, at times the first or
/// the last.
fn any_pair(random: &mut Xorshift, state: &State) -> Pair {
    let last_heap = usize::from(state.control.setup.processors);
    let pair = |heap, class| Pair { heap, class };
    match random.below(8) {
        0 => pair(
            random.pick(&[0, 1, last_heap]),
            random.pick(&[0, CLASSES - 1]),
        ),
        1 | 2 => pair(
            random.between(0, last_heap as u32) as usize,
            random.below(CLASSES as u32) as usize,
        ),
        _ => pair_in_use(random, state),
    }
}

/// A heap and class with a superblock; the state has one.
fn pair_in_use(random: &mut Xorshift, state: &State) -> Pair {
    let totals = &state.control.totals;
    let in_use = pairs().filter(|pair| totals.superblocks[pair.heap][pair.class] > 0);
    random.pick(&in_use.collect::<Vec<_>>())
}

fn any_entry(random: &mut Xorshift, state: &State) -> Entry {
    Entry {
        list: random.pick(&LISTS),
        pair: any_pair(random, state),
    }
}

/// One too few, in one case of three round past 0 to the widest number.
fn one_less(random: &mut Xorshift, state: &mut State) {
    let past_0 = random.chance(1, 3);
    let last_heap = usize::from(state.control.setup.processors);
    let totals = &mut state.control.totals;
    let of_setup = entries().filter(|entry| entry.pair.heap <= last_heap);
    let chosen = of_setup.filter(|entry| (entry.get(totals) == 0) == past_0);
    let chosen: Vec<Entry> = chosen.collect();
    random.pick(&chosen).shift(totals, -1);
}

/// Two totals that are wrong by as much, so that sums stay right: of two heaps, of
/// two classes or any two, by one or swapped.
fn cancel(random: &mut Xorshift, state: &mut State) {
    let from = pair_in_use(random, state);
    let any = any_pair(random, state);
    let other_heap = Pair {
        class: from.class,
        ..any
    };
    let other_class = Pair {
        heap: from.heap,
        ..any
    };
    let to = random.pick(&[other_heap, other_class, any]);
    let totals = &mut state.control.totals;
    let list = random.pick(&LISTS);
    match random.below(4) {
        0 => LISTS.iter().for_each(|&list| swap(totals, list, from, to)),
        1 => swap(totals, list, from, to),
        _ => shift_from_to(totals, list, from, to),
    }
}

fn swap(totals: &mut Totals, list: List, from: Pair, to: Pair) {
    let [from, to] = [from, to].map(|pair| Entry { list, pair });
    let number = from.get(totals);
    from.set(totals, to.get(totals));
    to.set(totals, number);
}

/// One less in one place and one more in another, where there is one to take.
fn shift_from_to(totals: &mut Totals, list: List, from: Pair, to: Pair) {
    let [from, to] = [from, to].map(|pair| Entry { list, pair });
    if from.get(totals) > 0 {
        from.shift(totals, -1);
        to.shift(totals, 1);
    }
}

/// A heap that the setup does not have: with a superblock, with a live block, with
/// a wide number, or with both totals of another heap and class, which keeps them
/// or not.
fn above_p(random: &mut Xorshift, state: &mut State) {
    let first = usize::from(state.control.setup.processors) + 1;
    let last = HEAPS - 1;
    let any = random.between(first as u32, last as u32) as usize;
    let model = pair_in_use(random, state);
    let pair = Pair {
        heap: random.pick(&[first, last, any]),
        class: random.pick(&[model.class, 0, CLASSES - 1]),
    };
    let [superblocks, live] = LISTS.map(|list| Entry { list, pair });
    let totals = &mut state.control.totals;
    match random.below(5) {
        0 => superblocks.set(totals, 1),
        1 => live.set(totals, 1),
        2 => random.pick(&[superblocks, live]).set(totals, u16::MAX),
        3 => LISTS
            .iter()
            .for_each(|&list| swap(totals, list, model, pair)),
        _ => LISTS.iter().for_each(|&list| {
            let number = Entry { list, pair: model }.get(totals);
            Entry { list, pair }.set(totals, number);
        }),
    }
}

/// A total of heap 0, mostly of a class that it has, is one too many or too few, 0
/// or wide, or all of them are 0.
fn heap_0(random: &mut Xorshift, state: &mut State) {
    let owned = state.superblocks.iter().filter(|it| it.owner == 0);
    let mut classes: Vec<usize> = owned.map(|it| it.class.into()).collect();
    if classes.is_empty() || random.chance(1, 6) {
        classes = (0..CLASSES).collect();
    }
    let list = random.pick(&LISTS);
    let class = random.pick(&classes);
    let entry = Entry {
        list,
        pair: Pair { heap: 0, class },
    };
    let totals = &mut state.control.totals;
    match random.below(6) {
        0 | 1 => entry.shift(totals, 1),
        2 | 3 => entry.shift(totals, -1),
        4 => entry.set(totals, random.pick(&[0, u16::MAX])),
        _ => (totals.superblocks[0], totals.live[0]) = ([0; CLASSES], [0; CLASSES]),
    }
}

/// Totals of one list alone: all 0, each heap with those of the next, all with the
/// numbers of the other list, or a few too small or too large.
fn one_list(list: List, random: &mut Xorshift, state: &mut State) {
    let right = state.control.totals.clone();
    let other_list = match list {
        List::Superblocks => List::Live,
        List::Live => List::Superblocks,
    };
    let way = random.below(4);
    for entry in entries().filter(|entry| entry.list == list) {
        let Pair { heap, class } = entry.pair;
        let next = Pair {
            heap: (heap + 1) % HEAPS,
            class,
        };
        let by = random.pick(&[-2, -1, 0, 0, 1, 2]);
        let totals = &mut state.control.totals;
        match way {
            0 => entry.set(totals, 0),
            1 => entry.set(totals, Entry { list, pair: next }.get(&right)),
            2 => {
                let list = other_list;
                entry.set(totals, Entry { list, ..entry }.get(&right));
            }
            _ if entry.get(totals) > 2 => entry.shift(totals, by),
            _ => {}
        }
    }
}

/// Numbers that are wide, or wide by just the upper part: in one place, in some or
/// in all.
fn wide(random: &mut Xorshift, state: &mut State) {
    let entry = any_entry(random, state);
    let share = random.pick(&[0, 0, 0, 1, 8]);
    let totals = &mut state.control.totals;
    for other in entries() {
        if other == entry || random.chance(share, 8) {
            let number = wide_number(random, other.list, other.get(totals));
            other.set(totals, number);
        }
    }
}

fn wide_number(random: &mut Xorshift, list: List, right: u16) -> u16 {
    match list {
        List::Superblocks => random.pick(&[255, 254, 128, 127, 65, 64, right + 128, right + 64]),
        List::Live => {
            let upper = random.pick(&[right + 256, right + 32768, right + 16384]);
            random.pick(&[65535, 65534, 32768, 32767, 16385, 16384, upper, upper])
        }
    }
}

/// Leaves some of the totals that a call changed as they were before it: all, one,
/// or some.
pub fn forget_change(random: &mut Xorshift, before: &Totals, totals: &mut Totals) {
    let changed = |entry: &Entry| entry.get(before) != entry.get(totals);
    let mut stale: Vec<Entry> = entries().filter(changed).collect();
    random.shuffle(&mut stale);
    let some = random.between(1, stale.len() as u32) as usize;
    let count = random.pick(&[1, 1, some, stale.len()]);
    for entry in &stale[..count] {
        entry.set(totals, entry.get(before));
    }
}

/// In half of all cases puts the totals at 0 or at any numbers, all or some.
pub fn loosen_totals(random: &mut Xorshift, totals: &mut Totals) {
    match random.below(4) {
        0 => *totals = Totals::NONE,
        1 => {
            let share = random.pick(&[1, 4, 243]);
            for entry in entries() {
                if random.chance(share, 243) {
                    let number = random.word() as u16;
                    let narrow = number % 4;
                    entry.set(totals, random.pick(&[number, narrow]));
                }
            }
        }
        _ => {}
    }
}

/// What a call did to a superblock that a program may forget to count.
#[derive(Clone, Copy, Debug, PartialEq, Eq)]
pub enum Step {
    /// Passed to heap 0.
    Moved,
    /// Taken from heap 0 with live blocks.
    TakenLive,
    /// Taken from heap 0 and renewed for another class.
    Renewed,
    /// Taken from any place but the first.
    Taken,
}

pub const STEPS: [Step; 4] = [Step::Moved, Step::TakenLive, Step::Renewed, Step::Taken];

/// Whether a call did so to one of the superblocks.
pub fn has_step(step: Step, before: &[Superblock], after: &[Superblock]) -> bool {
    let mut passed = before
        .iter()
        .zip(after)
        .filter(|(old, new)| old.owner != new.owner);
    passed.any(|(old, new)| match step {
        Step::Moved => new.owner == GLOBAL_HEAP,
        Step::TakenLive => old.owner == GLOBAL_HEAP && old.live_count() > 0,
        Step::Renewed => old.owner == GLOBAL_HEAP && old.class != new.class,
        Step::Taken => new.owner != GLOBAL_HEAP,
    })
}
