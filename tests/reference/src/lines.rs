//! The lines that a plan stands for.
//!
//! "Two plans in memory are the same if the lines they stand for are."

/// All lines of a plan. Processes, conditions and edges are numbered from 0 in the order they
/// stand; slots stand in bus order. The numbers may be any, also ones that are refused.
#[derive(Clone, Debug, PartialEq, Eq)]
pub struct Lines {
    /// The plan line.
    pub plan: PlanLine,
    /// The slots of a round, in bus order.
    pub slots: Vec<Slot>,
    /// The processes.
    pub processes: Vec<Process>,
    /// The conditions.
    pub conditions: Vec<Condition>,
    /// The edges.
    pub edges: Vec<Edge>,
}

/// The plan line.
#[derive(Clone, Copy, Debug, PartialEq, Eq)]
pub struct PlanLine {
    /// Ticks per byte on the bus.
    pub byte: u64,
    /// The bytes that each frame has beside its data. Document 02: "The plan line gains `(head 0)`,
    /// 0 to 16 bytes, after byte".
    pub head: u64,
    /// What goes first among several that could go.
    pub pick: Pick,
}

/// "`pick` is `urgency` or `number`".
#[derive(Clone, Copy, Debug, PartialEq, Eq)]
pub enum Pick {
    /// The highest urgency goes first.
    Urgency,
    /// The lower number goes first.
    Number,
}

/// A slot line.
#[derive(Clone, Copy, Debug, PartialEq, Eq)]
pub struct Slot {
    /// The node that sends in this slot.
    pub node: u64,
    /// The bytes of data that the slot holds, without the head. Document 02: "Capacity and places
    /// still count data only."
    pub bytes: u64,
}

/// A process line.
#[derive(Clone, Copy, Debug, PartialEq, Eq)]
pub struct Process {
    /// The node that the process runs on.
    pub node: u64,
    /// The longest time that the process runs.
    pub ticks: u64,
    /// Which of its edges the process waits for.
    pub waits: Waits,
}

/// "`waits` is `all`, or `any` for a conjunction process."
#[derive(Clone, Copy, Debug, PartialEq, Eq)]
pub enum Waits {
    /// The process needs every edge into it.
    All,
    /// The process needs at least one edge into it.
    Any,
}

/// A condition line.
#[derive(Clone, Copy, Debug, PartialEq, Eq)]
pub struct Condition {
    /// The process that decides the condition.
    pub process: u64,
}

/// An edge line.
#[derive(Clone, Copy, Debug, PartialEq, Eq)]
pub struct Edge {
    /// The process that the edge leaves.
    pub from: u64,
    /// The process that the edge leads to.
    pub to: u64,
    /// The length of the message.
    pub bytes: u64,
    /// On what the message depends.
    pub when: When,
}

/// The `when` of an edge.
#[derive(Clone, Copy, Debug, PartialEq, Eq)]
pub enum When {
    /// The message does not depend on a condition.
    Always,
    /// The condition of this number has to be true.
    True(u64),
    /// The condition of this number has to be false.
    False(u64),
}

impl When {
    /// The condition that the `when` names, and the value that it asks for.
    pub fn condition(self) -> Option<(u64, bool)> {
        match self {
            When::Always => None,
            When::True(condition) => Some((condition, true)),
            When::False(condition) => Some((condition, false)),
        }
    }
}

impl Lines {
    /// The number of rows. "Rows: processes, then edges, then conditions."
    pub fn rows(&self) -> usize {
        self.processes.len() + self.edges.len() + self.conditions.len()
    }

    /// The node of a process.
    pub fn node(&self, process: u64) -> u64 {
        self.processes[process as usize].node
    }

    /// "Edges within one node are local and use no bus."
    pub fn local(&self, edge: usize) -> bool {
        self.node(self.edges[edge].from) == self.node(self.edges[edge].to)
    }

    /// The condition that a process decides, if it decides one.
    pub fn decides(&self, process: u64) -> Option<usize> {
        self.conditions.iter().position(|c| c.process == process)
    }

    /// For each process, the numbers of the edges into it.
    pub fn edges_into(&self) -> Vec<Vec<usize>> {
        let mut into = vec![Vec::new(); self.processes.len()];
        for (number, edge) in self.edges.iter().enumerate() {
            into[edge.to as usize].push(number);
        }
        into
    }
}
