//! A list of cases with the state it starts from.

use std::fmt;

use lists::Generator;
use lists::rng::Rng;
use reading::{Sheet, State};

use crate::case::{Case, Fault};
use crate::library::Lent;
use crate::reads;
use crate::run::{Parting, Run};
use crate::tally::Tally;

/// A fault of the boundary's own stands in one of so many calls.
const FAULT_ONE_IN: usize = 80;
/// The reads are compared after one in so many calls.
const READS_ONE_IN: usize = 24;

/// What a list is run against: the calls, and whether the library's reads too.
#[derive(Clone, Copy)]
pub struct Library<L> {
    pub call: L,
    pub reads: bool,
}

#[derive(Debug, Clone, PartialEq)]
pub struct List {
    pub start: State,
    pub cases: Vec<Case>,
}

impl List {
    /// Makes the list of a seed and runs it as it is made. A list that parts
    /// comes back with the call at which it does.
    pub fn of_seed<L: FnMut(Lent<'_>) -> u32>(
        seed: u64,
        library: Library<L>,
        tally: &mut Tally,
    ) -> Result<(), Box<(Self, Parting)>> {
        let (mut generator, start) = Generator::new(seed);
        let mut rng = Rng::new(!seed);
        let mut list = Self { start, cases: Vec::new() };
        let mut run = Run::of(&list.start, library.call);
        tally.list(&list.start);
        if library.reads
            && let Err(parting) = reads::any_fresh(&mut rng)
        {
            return Err(Box::new((list, parting)));
        }
        for _ in 0..generator.length() {
            let step = generator.next(&run.state);
            let head = step.damaged_head.unwrap_or(run.image().head);
            let fault = rng.one_in(FAULT_ONE_IN).then(|| Fault::any(&mut rng, &head));
            let fault = fault.filter(|fault| fault.spoils(&head, &step.lengths));
            list.cases.push(Case { step, faults: fault.into_iter().collect() });
            let case = &list.cases[list.cases.len() - 1];
            let sheet = Sheet::of(&case.step.sheet);
            let done = run.call(case).and_then(|answer| {
                tally.call(case, &head, &answer);
                tally.epoch.call(&case.step.sheet, &run.compared, &answer, run.way);
                match sheet {
                    Some(sheet) if library.reads && rng.one_in(READS_ONE_IN) => {
                        reads::same_reads(run.image(), &run.state, sheet, &mut rng, tally)
                    }
                    _ => Ok(()),
                }
            });
            if let Err(parting) = done {
                return Err(Box::new((list, parting)));
            }
        }
        Ok(())
    }

    /// Where the list parts, if it does: the number of calls before, and what.
    pub fn parts(&self, library: impl FnMut(Lent<'_>) -> u32) -> Option<(usize, String)> {
        let mut run = Run::of(&self.start, library);
        for (number, case) in self.cases.iter().enumerate() {
            match run.call(case) {
                Ok(_) => {}
                Err(Parting::Differs(what)) => return Some((number, what)),
                Err(Parting::Unrefused(_)) => return None,
            }
        }
        None
    }
}

impl fmt::Display for List {
    fn fmt(&self, f: &mut fmt::Formatter<'_>) -> fmt::Result {
        let places = self.start.head.places;
        if self.start.is_fresh() {
            writeln!(f, "from the fresh state of {places} places")?;
        } else {
            writeln!(f, "from {:#?}", self.start)?;
        }
        for (number, case) in self.cases.iter().enumerate() {
            write!(f, "call {}: ", number + 1)?;
            case.write(f, places)?;
            writeln!(f)?;
        }
        Ok(())
    }
}
