//! Every cut of a call into written and spread arguments: P and N stay, and what is written and what stands behind `*` and `**` changes.
//! Demand 3 says that all cuts end alike, and as can-fill foretells of the call that is written out whole.

use std::fmt::{self, Display, Formatter};

use liuwdom::records::{self, Counts, RawRefusal, Record, BOARD, HEAD, PAIR, VALUE};
use liuwdom::{Areas, Bound, Call, Double, Key, Refusal, Signature, Star, Value};

type Told = Result<Counts, RawRefusal>;

// Over a parameter record and its area, a call record and its area; collection over a board too.
type Collect = fn(&[u64], &[u8], &[u64], &[u8], &mut [u64]) -> Told;
type CanFill = fn(&[u64], &[u8], &[u64], &[u8]) -> Result<bool, RawRefusal>;

/// The functions whose answers are compared.
#[derive(Clone, Copy)]
pub struct Functions {
    pub collect: Collect,
    pub can_fill: CanFill,
}

/// The library's own.
pub const LIBRARY: Functions = Functions {
    collect: records::collect_cells,
    can_fill: records::can_fill_cells,
};

/// How many of the values and of the names are written; whether the rest is given, though it may be empty.
#[derive(Clone, Copy, Debug, PartialEq, Eq)]
pub struct Cut {
    pub values: usize,
    pub list: bool,
    pub names: usize,
    pub dictionary: bool,
}

impl Display for Cut {
    fn fmt(&self, f: &mut Formatter) -> fmt::Result {
        let rest = |given| if given { "the rest" } else { "nothing" };
        write!(
            f,
            "values written: {}, {} behind *; names written: {}, {} behind **",
            self.values,
            rest(self.list),
            self.names,
            rest(self.dictionary)
        )
    }
}

// Where so many can be cut; a rest that is empty may be given or omitted.
fn places(count: usize) -> impl Iterator<Item = (usize, bool)> {
    let spread = (0..=count).rev().map(|written| (written, true));
    std::iter::once((count, false)).chain(spread)
}

/// The records of a list and a call.
pub struct Records {
    spec: Record,
    parameters: usize,
    call: Record,
}

impl Records {
    pub fn of(signature: &Signature, call: &Call) -> Records {
        Records {
            spec: signature.record(),
            parameters: signature.parameters(),
            call: call.record(),
        }
    }

    /// How the call ends.
    pub fn collect(&self, functions: Functions) -> Ending {
        self.collect_cells(functions, &self.call.cells)
    }

    fn collect_cells(&self, functions: Functions, cells: &[u64]) -> Ending {
        let mut board: Vec<u64> = BEFORE.collect();
        let Records { spec, call, .. } = self;
        let told = (functions.collect)(&spec.cells, &spec.area, cells, &call.area, &mut board);
        Ending { told, board }
    }

    /// What an ending says, with Rust's own types.
    pub fn outcome(&self, ending: &Ending) -> Result<Bound, Refusal> {
        let areas = Areas {
            spec: &self.spec.area,
            call: &self.call.area,
        };
        ending
            .told
            .map(|counts| Bound::read(counts, self.parameters, &ending.board, areas))
            .map_err(|refused| Refusal::of(refused, areas.spec, areas.call))
    }
}

/// P and N of a call, written out whole.
pub struct Whole {
    pub records: Records,
    values: usize,
    names: usize,
}

impl Whole {
    /// Nothing where P and N can't be written out: no list behind `*`, no dictionary behind `**`, or a key that is no name.
    pub fn of(signature: &Signature, call: &Call) -> Option<Whole> {
        let mut whole = Call {
            positionals: call.positionals.clone(),
            named: call.named.clone(),
            ..Call::default()
        };
        whole.positionals.extend(items(&call.star)?.iter().cloned());
        for (key, value) in entries(&call.double)? {
            match key {
                Key::Text(name) if !name.is_empty() => {
                    whole.named.push((name.clone(), value.clone()));
                }
                _ => return None,
            }
        }
        Some(Whole {
            records: Records::of(signature, &whole),
            values: whole.positionals.len(),
            names: whole.named.len(),
        })
    }

    // The call record of a cut: the same values and pairs under another head, the written ones first.
    fn cells(&self, cut: Cut) -> Vec<u64> {
        let (values, names) = self.records.call.cells[HEAD..].split_at(VALUE * self.values);
        let (written, listed) = values.split_at(VALUE * cut.values);
        let (named, entered) = names.split_at(PAIR * cut.names);
        let head = [
            cut.values as u64,
            cut.names as u64,
            u64::from(cut.list),
            (self.values - cut.values) as u64,
            u64::from(cut.dictionary),
            (self.names - cut.names) as u64,
        ];
        [&head, written, named, listed, entered].concat()
    }

    fn collect(&self, functions: Functions, cut: Cut) -> Ending {
        self.records.collect_cells(functions, &self.cells(cut))
    }

    // What can-fill says of the whole, if that is not how it ended; a refusal is never how it ended.
    fn foretold(&self, functions: Functions, accepted: bool) -> Option<bool> {
        let Records { spec, call, .. } = &self.records;
        let filled = (functions.can_fill)(&spec.cells, &spec.area, &call.cells, &call.area);
        let filled = filled.unwrap_or(!accepted);
        (filled != accepted).then_some(filled)
    }
}

fn items(star: &Star) -> Option<&[Value]> {
    match star {
        Star::Absent => Some(&[]),
        Star::Items(items) => Some(items),
        Star::NotIterable => None,
    }
}

fn entries(double: &Double) -> Option<&[(Key, Value)]> {
    match double {
        Double::Absent => Some(&[]),
        Double::Entries(entries) => Some(entries),
        Double::NotDictionary => None,
    }
}

// What the board holds before: no two cells alike.
const BEFORE: std::ops::Range<u64> = 1000..1000 + BOARD as u64;

/// How a cut ends: the answer and the whole board.
#[derive(Clone, Debug)]
pub struct Ending {
    told: Told,
    board: Vec<u64>,
}

impl Ending {
    // Repeats count as one, names aside: 16 is that of a written name, 19 that of an entry.
    fn is_like(&self, other: &Ending) -> bool {
        let repeated =
            |told: &Told| matches!(told, Err(refused) if [16, 19].contains(&refused.number));
        let told_alike = self.told == other.told || repeated(&self.told) && repeated(&other.told);
        told_alike && self.board == other.board
    }

    fn is_clean(&self) -> bool {
        self.told.is_ok() || self.board.iter().copied().eq(BEFORE)
    }

    // Whether the record itself is refused, so that demand 3 does not speak of it.
    fn is_of_record(&self) -> bool {
        matches!(self.told, Err(refused) if refused.number <= 14)
    }
}

/// How the cuts of a call ended.
pub struct Played {
    pub cuts: usize,
    /// The call written out whole.
    pub whole: Ending,
    /// Cuts that end otherwise (the whole itself, if it is refused and wrote to the board), and the first of them.
    pub others: usize,
    pub first: Option<(Cut, Ending)>,
    /// What can-fill said of the whole, where that is not how it ended.
    pub foretold: Option<bool>,
}

/// Plays every cut; nothing where the whole is refused as a record (1 to 14).
pub fn play(whole: &Whole, functions: Functions) -> Option<Played> {
    let mut cuts = places(whole.values).flat_map(|(values, list)| {
        places(whole.names).map(move |(names, dictionary)| Cut {
            values,
            list,
            names,
            dictionary,
        })
    });
    let written = cuts.next()?;
    let ending = whole.collect(functions, written);
    if ending.is_of_record() {
        return None;
    }
    let mut played = Played {
        cuts: 1,
        others: usize::from(!ending.is_clean()),
        first: (!ending.is_clean()).then(|| (written, ending.clone())),
        foretold: whole.foretold(functions, ending.told.is_ok()),
        whole: ending,
    };
    for cut in cuts {
        played.cuts += 1;
        let ending = whole.collect(functions, cut);
        if !ending.is_like(&played.whole) {
            played.others += 1;
            played.first.get_or_insert((cut, ending));
        }
    }
    Some(played)
}

#[cfg(test)]
mod tests {
    use super::*;

    fn water() -> Signature {
        let list = Signature::new("water").required("block").slash();
        list.required("start").defaulted("minutes", 30)
    }

    fn played(call: &Call, functions: Functions) -> Option<Played> {
        play(&Whole::of(&water(), call)?, functions)
    }

    fn accepted() -> Call {
        Call::new()
            .positional("B3")
            .positional(400)
            .named("minutes", 45)
    }

    #[test]
    fn all_cuts_of_an_accepted_call_end_alike() {
        let played = played(&accepted(), LIBRARY).unwrap();
        // 0, 1 or 2 values and 0 or 1 name written, and both rests omitted.
        assert_eq!((played.cuts, played.others), (4 * 3, 0));
        assert!(played.whole.told.is_ok());
        assert_eq!(played.foretold, None);
    }

    #[test]
    fn repeats_count_as_one_over_cuts() {
        let call = Call::new().positional("B3").items([400]);
        let played = played(&call.entries([("start", 430)]), LIBRARY).unwrap();
        assert_eq!(played.whole.told.unwrap_err().number, 16);
        assert_eq!((played.cuts, played.others), (4 * 3, 0));
    }

    #[test]
    fn calls_without_cuts_are_not_played() {
        let call = Call::new().positional("B3");
        assert!(played(&call.clone().star(Star::NotIterable), LIBRARY).is_none());
        assert!(played(&call.clone().double(Double::NotDictionary), LIBRARY).is_none());
        assert!(played(&call.clone().entries([("", 1)]), LIBRARY).is_none());
        let twice = call.named("start", 1).entries([("start", 2)]);
        assert!(played(&twice, LIBRARY).is_none());
    }

    #[test]
    fn sixty_four_of_each_are_cut() {
        let names = (0..64).map(|index| (format!("name{index}"), index));
        let call = Call::new().items(0..64).entries(names);
        let list = Signature::new("f").args().kwargs();
        let played = play(&Whole::of(&list, &call).unwrap(), LIBRARY).unwrap();
        assert_eq!((played.cuts, played.others), (66 * 66, 0));
        assert!(played.whole.told.is_ok());
        assert!(Whole::of(&list, &call.positional(0)).is_some_and(|p| play(&p, LIBRARY).is_none()));
    }

    fn with_collect(collect: Collect) -> Functions {
        Functions { collect, ..LIBRARY }
    }

    #[test]
    fn a_count_that_depends_on_the_list_is_seen() {
        let wrong = with_collect(|spec_cells, spec, call_cells, call, board| {
            let mut counts = records::collect_cells(spec_cells, spec, call_cells, call, board)?;
            counts.taken += call_cells[3] as usize;
            Ok(counts)
        });
        let played = played(&accepted(), wrong).unwrap();
        // Each cut with a list that is not empty: two of the four places, times three.
        assert_eq!(played.others, 2 * 3);
        let (cut, _) = played.first.unwrap();
        assert_eq!((cut.values, cut.list), (1, true));
    }

    #[test]
    fn a_slot_that_depends_on_the_dictionary_is_seen() {
        let wrong = with_collect(|spec_cells, spec, call_cells, call, board| {
            let counts = records::collect_cells(spec_cells, spec, call_cells, call, board)?;
            board[5] += call_cells[5];
            Ok(counts)
        });
        assert_eq!(played(&accepted(), wrong).unwrap().others, 4);
    }

    #[test]
    fn a_refusal_that_writes_is_seen() {
        let wrong = with_collect(|spec_cells, spec, call_cells, call, board| {
            board[0] = 0;
            records::collect_cells(spec_cells, spec, call_cells, call, board)
        });
        let played = played(&Call::new(), wrong).unwrap();
        assert_eq!(played.whole.told.unwrap_err().number, 20);
        assert!(played.first.is_some());
    }

    #[test]
    fn a_wrong_foretelling_is_seen() {
        let wrong = Functions {
            can_fill: |_, _, _, _| Ok(false),
            ..LIBRARY
        };
        assert_eq!(played(&accepted(), wrong).unwrap().foretold, Some(false));
    }
}
