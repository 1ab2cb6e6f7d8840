//! Faults that can be seeded into the second implementation, to see that the comparison finds them.

/// One deliberate fault, or none.
#[derive(Clone, Copy, Debug, PartialEq, Eq)]
pub enum Fault {
    None,
    /// The star of paper 003: its body starts at the star's own position.
    Star,
    /// An effect's condition is judged after the effects before it.
    Effects,
    /// Effects that hold clear and then set, and a fact both cleared and set ends true.
    ConflictIgnored,
    /// A conflict is judged without the effects' conditions.
    ConflictWithoutConditions,
    /// Two effects that hold and give one fact the same value are a conflict.
    ConflictOfEquals,
    /// A choice takes its first branch alone.
    FirstBranch,
    /// A search that comes by a silent step to a configuration met before gives up.
    FreeLoops,
    /// One no-op is added behind a step list.
    LateSteps,
    /// A table that is too short is looked at before the list.
    TableFirst,
    /// The least cost is found by the house's class costs, whatever costs text is handed in.
    HouseLeast,
    /// An empty costs text is taken for none.
    EmptyCosts,
    /// The costs text is looked at before the job text.
    CostsFirst,
    /// A class cost above 3,600 is refused.
    OldCosts,
    /// An entry of the cost table that can't be reached is 4,294,967,295.
    OldUnreached,
    /// Of an entry of the cost table the lower 32 bits are written, and the others left.
    LowHalves,
    /// Sums in the cost table are cut to 32 bits.
    LowSums,
    /// The last page of a sheet ends behind the last move.
    OpenPage,
    /// A row of a sheet has the total of the rows before it.
    LateTotals,
    /// The list is filled before an output that is too short is refused.
    EarlyList,
    /// A cost table for the most facts needs no more numbers than for one fact fewer.
    LastDoubling,
    /// A pick's copies are compiled for the last object first.
    ObjectOrder,
    /// In runs of the program the variable 0 is of the outermost pick.
    NearestForOutermost,
    /// For a row that is used several times, the use that is read first says how many picks are around it.
    FirstUse,
    /// Whether a move's second class is added is judged in the state after the move.
    CostAfterMove,
    /// Where its condition holds, a move costs its second class alone.
    SecondForSum,
    /// The least cost and the cost table are found without second classes.
    PlainLeast,
}

/// The faults by their names on the command line.
pub const FAULTS: [(&str, Fault); 26] = [
    ("star", Fault::Star),
    ("effects", Fault::Effects),
    ("conflict-ignored", Fault::ConflictIgnored),
    ("conflict-without-conditions", Fault::ConflictWithoutConditions),
    ("conflict-of-equals", Fault::ConflictOfEquals),
    ("first-branch", Fault::FirstBranch),
    ("free-loops", Fault::FreeLoops),
    ("late-steps", Fault::LateSteps),
    ("table-first", Fault::TableFirst),
    ("house-least", Fault::HouseLeast),
    ("empty-costs", Fault::EmptyCosts),
    ("costs-first", Fault::CostsFirst),
    ("old-costs", Fault::OldCosts),
    ("old-unreached", Fault::OldUnreached),
    ("low-halves", Fault::LowHalves),
    ("low-sums", Fault::LowSums),
    ("open-page", Fault::OpenPage),
    ("late-totals", Fault::LateTotals),
    ("early-list", Fault::EarlyList),
    ("last-doubling", Fault::LastDoubling),
    ("object-order", Fault::ObjectOrder),
    ("nearest-for-outermost", Fault::NearestForOutermost),
    ("first-use", Fault::FirstUse),
    ("cost-after-move", Fault::CostAfterMove),
    ("second-for-sum", Fault::SecondForSum),
    ("plain-least", Fault::PlainLeast),
];

impl Fault {
    /// The fault of this name.
    pub fn named(name: &str) -> Option<Fault> {
        FAULTS.iter().find(|(own, _)| *own == name).map(|(_, fault)| *fault)
    }
}
