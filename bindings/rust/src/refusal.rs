//! Document 01's table of refusals, and those that requests 102 and 107 add to it.

use std::error::Error;
use std::fmt;

/// The enum, its table, and the number and the word of each: a line for each.
macro_rules! refusals {
    ($($number:literal $name:ident $word:literal $cause:literal)*) => {
        /// Why a step was refused: the lowest-numbered cause that held, but for
        /// [`lock`](crate::Sections::lock), which has an order of its own. 16 to 18
        /// are those of [guarded](crate::Sections::guarded) maps, 19 and 20 those of exports.
        ///
        /// ```
        /// use sections::{Refusal, Sections};
        /// let refusal = Sections::new().begin(8).unwrap_err();
        /// assert_eq!(refusal, Refusal::NoSeat);
        /// assert_eq!(refusal.to_string(), "refused: no seat (1)");
        /// ```
        #[derive(Clone, Copy, PartialEq, Eq, PartialOrd, Ord, Hash, Debug)]
        #[non_exhaustive]
        pub enum Refusal {
            $(#[doc = concat!(stringify!($number), ", ", $word, ". ", $cause)] $name = $number,)*
        }

        impl Refusal {
            /// All of them, by number.
            pub const ALL: &'static [Refusal] = &[$(Refusal::$name),*];

            /// Document 01's word for it, or this crate's for those of the requests.
            pub fn word(self) -> &'static str {
                match self { $(Refusal::$name => $word),* }
            }
        }
    };
}

refusals! {
    1 NoSeat "no seat" "All but folds and exports: the seat is above 7."
    2 SeatFree "seat free" "All but begin, folds and exports."
    3 SeatTaken "seat taken" "Begin."
    4 WrongStage "wrong stage" "Read, scan, put, remove, lock, validate, install."
    5 Backward "backward" "Scan: lo is above hi."
    6 LogFull "log full" "Read, scan: the log would pass its 64 record entries or its 32 marks."
    7 EditsFull "edits full" "Put, remove: a 17th address."
    8 ShortBuffer "short buffer" "Scan: more records than places. File: more bytes than places."
    9 Held "held" "Lock: another seat has one of the addresses."
    10 IndexletFull "indexlet full" "Lock: more than 192 waiting and locked addresses."
    11 MapFull "map full" "Lock: more than 1,024 index, waiting and locked addresses."
    12 Changed "changed" "Validate: a logged record was written since. The job is ended."
    13 UnderLock "under lock" "Validate: another seat has locked a logged address. The job is ended."
    14 Phantom "phantom" "Validate: a logged leaf has changed, or hides a key. The job is ended."
    15 Spent "spent" "Validate: all 1,000,000 serial numbers are given."
    16 Unfit "unfit" "Lock: a length outside 1 to 65,536, or an end past the highest address."
    17 Uncovered "uncovered" "Lock: no scan from 65,535 addresses before a put to its last byte."
    18 Overlap "overlap" "Lock: another section shares a byte with a put."
    19 ExportOpen "export open" "Opening an export: one is open."
    20 NoExport "no export" "A portion, a file or the close of an export: none is open."
}

impl Refusal {
    /// Document 01's number, or a request's.
    pub fn number(self) -> u64 {
        self as u64
    }

    /// The refusal with that number.
    ///
    /// ```
    /// use sections::Refusal;
    /// assert_eq!(Refusal::from_number(14), Some(Refusal::Phantom));
    /// assert_eq!(Refusal::from_number(0), None);
    /// ```
    pub fn from_number(number: u64) -> Option<Self> {
        Self::ALL.iter().copied().find(|refusal| refusal.number() == number)
    }

    /// Whether it ends the job: the seat is free, its edits and locks are gone.
    /// All others change nothing.
    pub fn ends_job(self) -> bool {
        matches!(self, Refusal::Changed | Refusal::UnderLock | Refusal::Phantom)
    }
}

impl fmt::Display for Refusal {
    fn fmt(&self, out: &mut fmt::Formatter) -> fmt::Result {
        write!(out, "refused: {} ({})", self.word(), self.number())
    }
}

impl Error for Refusal {}
