//! Where the kernel refuses, by a fixed size (9) or by the rule of retired parents (3), though lib.rs, whose tables
//! grow and which takes a retired parent, answers something else.
use crate::calls::Call;
use crate::log::LIST;
use crate::sizes::{DECLARATIONS, IDENTITIES, LINKS};

/// How many records the three tables have.
#[derive(Clone, Copy, PartialEq, Eq, Debug)]
pub struct Counts {
    pub nodes: usize,
    pub declarations: usize,
    pub links: usize,
}

/// What lib.rs had and made: its answer, the tables before and after it, the lengths of the pending dependencies and
/// provisions, whether the call names a parent that was present and retired, and how many declarations before it are not
/// dependencies of the component that it configures.
pub struct Answered {
    pub own: u8,
    pub before: Counts,
    pub after: Counts,
    pub lists: [usize; 2],
    pub parent_retired: bool,
    pub remaining: usize,
}

/// What refuses: a size that is passed, or the parent.
#[derive(Clone, Copy, PartialEq, Eq, Debug)]
pub enum Intended {
    List,
    InsertList,
    ConfigureList,
    Identities,
    RetiredParent,
    InsertSum,
    DeclareSum,
    ConfigureSum,
    Links,
}

/// Those that a log can meet.
pub const IN_LOGS: [Intended; 7] = [
    Intended::List,
    Intended::Identities,
    Intended::RetiredParent,
    Intended::InsertSum,
    Intended::DeclareSum,
    Intended::ConfigureSum,
    Intended::Links,
];

/// The head of a table of them.
pub const HEAD: &str = "| refused, and not by lib.rs | number | times | lib.rs's own answer there |\n|---|---|---|---|";

impl Intended {
    pub fn name(self) -> &'static str {
        match self {
            Intended::List => "a 33rd pending port",
            Intended::InsertList => "insert or check_insert, a list over 32",
            Intended::ConfigureList => "configure, a list over 32",
            Intended::Identities => "insert, 64 identities",
            Intended::RetiredParent => "insert, a retired parent",
            Intended::InsertSum => "insert, declarations over 256",
            Intended::DeclareSum => "declare, declarations over 256",
            Intended::ConfigureSum => "configure, sum over 256",
            Intended::Links => "begin, links over 512",
        }
    }

    /// The refusal's number.
    pub fn number(self) -> u8 {
        match self {
            Intended::RetiredParent => 3,
            _ => 9,
        }
    }

    /// The answers that lib.rs may give there.
    pub fn hides(self) -> &'static [u8] {
        match self {
            Intended::InsertList | Intended::Identities => &[0, 1, 5],
            Intended::ConfigureList => &[0, 1, 2, 3, 5],
            Intended::RetiredParent | Intended::ConfigureSum => &[0, 5],
            Intended::List | Intended::InsertSum | Intended::DeclareSum | Intended::Links => &[0],
        }
    }

    /// A row of the table: how often lib.rs gave each answer.
    pub fn row(self, own: &[u64; 10]) -> String {
        let answers = (0..10).filter(|&a| own[a] > 0).map(|a| format!("{a}: {}", own[a])).collect::<Vec<_>>();
        let answers =
            if self == Intended::List { "none: the log player's own".to_string() } else { answers.join(", ") };
        format!("| {} | {} | {} | {answers} |", self.name(), self.number(), own.iter().sum::<u64>())
    }
}

/// What refuses a call, if anything does, in the order of the call's tests.
pub fn refuses(call: Call, a: &Answered) -> Option<Intended> {
    let [listed, provided] = a.lists;
    let reached_the_sum = a.own == 0 || a.own == 5;
    match call {
        Call::Insert(_) if listed.max(provided) > LIST => Some(Intended::InsertList),
        Call::Configure(_) if listed > LIST => Some(Intended::ConfigureList),
        Call::Insert(_) if a.before.nodes == IDENTITIES => Some(Intended::Identities),
        Call::Insert(_) if a.parent_retired => Some(Intended::RetiredParent),
        Call::Insert(_) if a.after.declarations > DECLARATIONS => Some(Intended::InsertSum),
        Call::Declare(..) if a.after.declarations > DECLARATIONS => Some(Intended::DeclareSum),
        Call::Configure(_) if reached_the_sum && a.remaining + listed > DECLARATIONS => Some(Intended::ConfigureSum),
        Call::Begin(_) if a.after.links > LINKS => Some(Intended::Links),
        _ => None,
    }
}
