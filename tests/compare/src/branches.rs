//! The names of the branches of lists and table.

reference::branches! {
    /// The lists.
    Lists:
    "capacity: 1",
    "capacity: 2",
    "capacity: 3",
    "capacity: 4",
    "capacity: 5",
    "capacity: 6",
    "capacity: 7",
    "capacity: 8",
    "capacity: 64",
    "capacity: 65 to 70",
    "capacity: 128",
    "capacity: 129",
    "capacity: the largest",
    "call: addition",
    "call: step",
    "call: impulses",
    "call: removal",
    "call: look up",
    "call: prune",
    "call: empty graph",
    "call: damaged, on copies",
    "impulse written",
    "impulse written, NaN",
    "workers: 1",
    "workers: 2",
    "workers: 3",
    "workers: 4",
    "workers: 5",
    "workers: 6",
    "workers: 7",
    "workers: 8",
    "a worker without contacts",
    "an order other than the list's",
    "pairs in a step: none",
    "pairs in a step: 1",
    "pairs in a step: 2 to 8",
    "pairs in a step: 9 to 64",
    "pairs in a step: over 64",
    "removals in a step: none",
    "removals in a step: 1",
    "removals in a step: several",
    "all recycled",
    "none recycled",
    "some recycled",
}

reference::branches! {
    /// How accepted steps say the matching setting.
    Matchings:
    "matching: by number",
    "matching: by place",
    "matching: not named, 0 behind the mark",
    "matching: not named, 1 behind the mark",
    "matching: not named, another word behind the mark",
}

reference::branches! {
    /// Steps that would leave another graph by the other rule of matching.
    Parted:
    "the rules part: a step by number",
    "the rules part: a step by place",
    "the rules part: a step that names none",
}

reference::branches! {
    /// The table of refusals: condition by condition.
    Table:
    "table 1: look up's answer",
    "table 1: capacity 0",
    "table 1: capacity too large",
    "table 1: graph",
    "table 1: graph without a capacity",
    "table 1: request",
    "table 1: addition's answer",
    "table 1: settings",
    "table 1: colliders",
    "table 1: bodies",
    "table 1: proposals",
    "table 1: shares",
    "table 1: bit words",
    "table 1: events",
    "table 1: changes",
    "table 1: distances",
    "table 1: step's answer",
    "table 1: normal",
    "table 1: points to prune",
    "table 1: prune's answer",
    "table 1: player",
    "table 1: printed bytes",
    "table 1: a line's answer",
    "table 2: request's collider 1",
    "table 2: request's collider 2",
    "table 2: request's mark of body 1",
    "table 2: request's body 1",
    "table 2: request's mark of body 2",
    "table 2: request's body 2",
    "table 2: request's event mark",
    "table 2: request's modify mark",
    "table 2: mark of match_contacts",
    "table 2: default friction's rule",
    "table 2: default restitution's rule",
    "table 2: matching's presence mark",
    "table 2: matching mark",
    "table 2: collider's presence mark",
    "table 2: collider's mark of a body",
    "table 2: collider's body",
    "table 2: collider's friction mark",
    "table 2: collider's friction rule",
    "table 2: collider's restitution mark",
    "table 2: collider's restitution rule",
    "table 2: collider's margin mark",
    "table 2: sensor mark",
    "table 2: body's presence mark",
    "table 2: static mark",
    "table 2: body's friction mark",
    "table 2: body's friction rule",
    "table 2: body's margin mark",
    "table 2: mark of a speculative maximum",
    "table 2: hook's answer",
    "table 2: ids given over the capacity",
    "table 2: listed pairs over the capacity",
    "table 2: free ids over the capacity",
    "table 2: list and contacts not naming each other",
    "table 2: a pair standing twice",
    "table 2: an id free or standing, never given",
    "table 2: an id free twice",
    "table 2: an id free and standing",
    "table 2: an id given, neither",
    "table 2: contact's mark 1",
    "table 2: contact's mark 2",
    "table 2: contact's mark 3",
    "table 2: contact's mark 4",
    "table 2: contact's mark 5",
    "table 2: contact's mark 6",
    "table 2: contact's mark 7",
    "table 2: contact's mark 8",
    "table 2: contact's mark 9",
    "table 2: contact's mark 10",
    "table 2: contact's mark 11",
    "table 2: contact's collider 1",
    "table 2: contact's collider 2",
    "table 2: contact's mark of body 1",
    "table 2: contact's body 1",
    "table 2: contact's mark of body 2",
    "table 2: contact's body 2",
    "table 2: contact's mark of a cache",
    "table 2: too many stored manifolds",
    "table 2: too many stored points",
    "table 4: in the same order",
    "table 4: in the other order",
    "table 6: too many manifolds",
    "table 6: too many points",
    "table 7: no worker",
    "table 7: too many workers",
    "table 7: more listed than the capacity",
    "table 7: something else listed",
    "table 7: a pair listed twice",
    "table 7: a pair not listed",
    "table 9: an id never given",
    "table 9: a free id",
}

reference::branches! {
    /// Lines played from any player.
    Plays:
    "play: at the end",
    "play: past the end",
    "play: unreadable",
    "play: unreadable, inside a line",
    "play: unreadable, a go without settings",
    "play: waits for a go",
    "play: waits for a go, inside a line",
    "play: addition accepted",
    "play: addition refused with 2",
    "play: addition refused with 2, the graph out of range",
    "play: addition refused with 3",
    "play: addition refused with 4",
    "play: addition refused with 5",
    "play: go, 2 by the mark",
    "play: go, 2 by the graph",
    "play: go, 2 by the rows",
    "play: go, 6",
    "play: go, silent",
    "play: go, prints",
    "play: go, by number",
    "play: go, by place",
    "play: go, its lines begin inside a line",
    "play: go, its lines begin past it",
    "play: go, its lines begin past the end",
    "play: go, another go among its lines",
    "play: go, its lines end at one that fits no record",
    "play: a mark over 1",
    "play: a mark over the words of 32 bits",
}

macro_rules! reach {
    ($($branch:tt)+) => {
        reference::reach_in!($crate::branches::Lists; $($branch)+)
    };
}
pub(crate) use reach;

macro_rules! said {
    ($($branch:tt)+) => {
        reference::reach_in!($crate::branches::Matchings; $($branch)+)
    };
}
pub(crate) use said;

macro_rules! parted {
    ($($branch:tt)+) => {
        reference::reach_in!($crate::branches::Parted; $($branch)+)
    };
}
pub(crate) use parted;

macro_rules! played {
    ($($branch:tt)+) => {
        reference::reach_in!($crate::branches::Plays; $($branch)+)
    };
}
pub(crate) use played;

macro_rules! condition {
    ($($branch:tt)+) => {
        reference::reach_in!($crate::branches::Table; $($branch)+)
    };
}
pub(crate) use condition;
