//! The classes of inputs that are measured.

use generate::{plan, Kind, Random};
use reference::{Lines, Slot};

/// A class of inputs: random plans of a kind, changed to a form.
pub struct Class {
    kind: Kind,
    form: Form,
    /// How many inputs are measured.
    pub count: u64,
}

/// What is changed in the random plans of a class.
#[derive(Clone, Copy)]
enum Form {
    /// They have no head: slots last as long as their data.
    NoHead,
    /// They have a head of 0 to 16 bytes, by the number of the plan.
    RandomHead,
    /// Their round is two slots of one tick, and each process lasts 100,000 ticks.
    TwoTickRound,
}

/// The classes of inputs.
pub const CLASSES: [Class; 9] = [
    Class::new(Kind::Tiny, Form::NoHead, 64),
    Class::new(Kind::DenseBus, Form::NoHead, 32),
    Class::new(Kind::ManyConditions, Form::NoHead, 32),
    Class::new(Kind::NestedAny, Form::NoHead, 32),
    Class::new(Kind::Largest, Form::NoHead, 4),
    Class::new(Kind::Largest, Form::RandomHead, 4),
    Class::new(Kind::Largest, Form::TwoTickRound, 4),
    Class::new(Kind::LongestRound, Form::NoHead, 32),
    Class::new(Kind::ShortestRound, Form::NoHead, 32),
];

/// What the seed of a plan's head is beside the seed of the plan.
const HEAD_SEEDS: u64 = 1 << 32;

impl Class {
    const fn new(kind: Kind, form: Form, count: u64) -> Self {
        Class { kind, form, count }
    }

    /// The name of the class.
    pub fn name(&self) -> String {
        match self.form {
            Form::NoHead => format!("{:?}", self.kind),
            Form::RandomHead => format!("{:?}Heads", self.kind),
            Form::TwoTickRound => "TwoTickRound".to_string(),
        }
    }

    /// The plan of a number. Its head has a seed of its own: plans of one kind and number, with a head and
    /// without, differ in the head alone.
    pub fn plan(&self, number: u64) -> Lines {
        let mut lines = plan(self.kind, &mut Random::new(number));
        lines.plan.head = 0;
        match self.form {
            Form::NoHead => {}
            Form::RandomHead => {
                lines.plan.head = Random::new(HEAD_SEEDS | number).between(0, 16);
            }
            Form::TwoTickRound => two_tick_round(&mut lines),
        }
        lines
    }
}

/// Puts a plan without a head on two nodes with slots of one tick, and makes its processes as long as they
/// may be, so that each outlasts 50,000 rounds.
fn two_tick_round(lines: &mut Lines) {
    lines.plan.byte = 1;
    lines.slots = [0, 1].map(|node| Slot { node, bytes: 1 }).to_vec();
    for process in &mut lines.processes {
        process.node %= 2;
        process.ticks = 100_000;
    }
    for edge in &mut lines.edges {
        edge.bytes = 1;
    }
}

#[cfg(test)]
mod tests {
    use super::*;
    use reference::bus::round_ticks;
    use reference::refuse_plan;

    #[test]
    fn a_round_of_two_ticks_has_the_largest_plans() {
        let mut classes = CLASSES.iter();
        let class = classes.find(|c| c.name() == "TwoTickRound").unwrap();
        for number in 0..20 {
            let lines = class.plan(number);
            assert_eq!(refuse_plan(&lines), None);
            assert_eq!((round_ticks(&lines), lines.processes.len()), (2, 64));
            assert_eq!((lines.conditions.len(), lines.edges.len()), (6, 128));
            assert!(lines.processes.iter().all(|p| p.ticks == 100_000));
        }
    }

    #[test]
    fn each_class_has_a_name_of_its_own() {
        let names: Vec<String> = CLASSES.iter().map(Class::name).collect();
        for (place, name) in names.iter().enumerate() {
            assert!(!names[..place].contains(name), "{name}");
        }
    }
}
