//! A sheet as a record, and the bytes that say it.

use std::fmt;

/// The most atoms a sheet may have.
pub const MOST_ATOMS: usize = 512;
/// The most rules a sheet may have.
pub const MOST_RULES: usize = 2048;
/// The most bytes a sheet may have.
pub const MOST_BYTES: usize = 65_536;
/// The greatest weight of a literal.
pub const MOST_WEIGHT: u32 = 1_000_000;
/// The greatest number that four bytes can say.
pub const MOST_NUMBER: u32 = 268_435_455;

/// The four kinds of rule; the value is the kind's number on the sheet.
#[derive(Clone, Copy, Debug, PartialEq, Eq, PartialOrd, Ord)]
pub enum Kind {
    Basic = 1,
    Constraint = 2,
    Choice = 3,
    Weight = 5,
}

impl Kind {
    pub const ALL: [Kind; 4] = [Kind::Basic, Kind::Constraint, Kind::Choice, Kind::Weight];

    /// The kind with this number, if there is one.
    pub fn of_number(number: u32) -> Option<Kind> {
        Kind::ALL.into_iter().find(|kind| *kind as u32 == number)
    }
}

/// An atom of a body with its weight. Whether it is negated is said by the
/// list it stands in.
#[derive(Clone, Copy, Debug, PartialEq, Eq, PartialOrd, Ord)]
pub struct Literal {
    /// From 1 to the sheet's atom count.
    pub atom: usize,
    /// 1 for every kind but [`Kind::Weight`].
    pub weight: u32,
}

/// A rule with its need worked out: the body's length for basic and choice
/// rules, the bound for constraint and weight rules. Two rules are the same
/// when all of this is equal.
#[derive(Clone, Debug, PartialEq, Eq, PartialOrd, Ord)]
pub struct Rule {
    pub kind: Kind,
    /// One atom, or for a choice rule one or more.
    pub heads: Vec<usize>,
    pub need: u32,
    pub positive: Vec<Literal>,
    pub negative: Vec<Literal>,
}

impl Rule {
    /// How many literals the body has.
    pub fn length(&self) -> usize {
        self.positive.len() + self.negative.len()
    }

    /// The sum of the body's own weights. A bound above it is dead: the body
    /// cannot reach it on any map.
    pub fn sum(&self) -> u32 {
        self.positive.iter().chain(&self.negative).map(|literal| literal.weight).sum()
    }

    /// Whether the rule gives its heads only where they are chosen.
    pub fn is_choice(&self) -> bool {
        self.kind == Kind::Choice
    }

    /// The numbers of the rule in order.
    pub fn numbers(&self) -> Vec<u32> {
        let mut numbers = vec![self.kind as u32];
        match self.kind {
            Kind::Choice => list_numbers(self.heads.iter().copied(), &mut numbers),
            Kind::Basic => numbers.push(number_of(self.heads[0])),
            Kind::Constraint | Kind::Weight => numbers.extend([number_of(self.heads[0]), self.need]),
        }
        list_numbers(self.positive.iter().map(|literal| literal.atom), &mut numbers);
        list_numbers(self.negative.iter().map(|literal| literal.atom), &mut numbers);
        if self.kind == Kind::Weight {
            numbers.extend(self.positive.iter().chain(&self.negative).map(|literal| literal.weight));
        }
        numbers
    }
}

/// An accepted sheet.
#[derive(Clone, Debug, Default, PartialEq, Eq)]
pub struct Sheet {
    pub atoms: usize,
    pub rules: Vec<Rule>,
    pub compute_in: Vec<usize>,
    pub compute_out: Vec<usize>,
}

impl Sheet {
    /// A measure of how long one look at every rule takes.
    pub fn size(&self) -> usize {
        let of_rule = |rule: &Rule| 1 + rule.heads.len() + rule.length();
        1 + self.atoms + self.rules.iter().map(of_rule).sum::<usize>()
    }

    /// The numbers of the sheet in order.
    pub fn numbers(&self) -> Vec<u32> {
        let mut numbers = vec![1, number_of(self.atoms), number_of(self.rules.len())];
        numbers.extend(self.rules.iter().flat_map(Rule::numbers));
        list_numbers(self.compute_in.iter().copied(), &mut numbers);
        list_numbers(self.compute_out.iter().copied(), &mut numbers);
        numbers
    }

    /// The bytes of the sheet. Nothing is checked: a record that breaks a
    /// limit gives bytes that a reader refuses.
    pub fn bytes(&self) -> Vec<u8> {
        bytes_of(&self.numbers())
    }
}

/// One rule a line, for messages.
impl fmt::Display for Sheet {
    fn fmt(&self, to: &mut fmt::Formatter<'_>) -> fmt::Result {
        writeln!(to, "{} atoms, in {:?}, out {:?}", self.atoms, self.compute_in, self.compute_out)?;
        self.rules.iter().enumerate().try_for_each(|(index, rule)| writeln!(to, "{:4}: {rule}", index + 1))
    }
}

impl fmt::Display for Rule {
    fn fmt(&self, to: &mut fmt::Formatter<'_>) -> fmt::Result {
        let literal = |sign: &str, literal: &Literal| format!("{sign}{}={}", literal.atom, literal.weight);
        let positive = self.positive.iter().map(|one| literal("", one));
        let body = positive.chain(self.negative.iter().map(|one| literal("not ", one))).collect::<Vec<_>>();
        write!(to, "{:?} {:?} if {} of {{{}}}", self.kind, self.heads, self.need, body.join(", "))
    }
}

/// A rule record for the writer, from atoms: `basic(1, &[2], &[3])` is
/// "1 if 2 and not 3".
pub fn basic(head: usize, positive: &[usize], negative: &[usize]) -> Rule {
    let need = number_of(positive.len() + negative.len());
    Rule { kind: Kind::Basic, heads: vec![head], need, positive: ones(positive), negative: ones(negative) }
}

/// A choice rule: `choice(&[1, 2], &[], &[])` leaves 1 and 2 free.
pub fn choice(heads: &[usize], positive: &[usize], negative: &[usize]) -> Rule {
    Rule { kind: Kind::Choice, heads: heads.to_vec(), ..basic(0, positive, negative) }
}

/// A constraint rule: the head if at least `bound` literals of the body hold.
pub fn constraint(head: usize, bound: u32, positive: &[usize], negative: &[usize]) -> Rule {
    Rule { kind: Kind::Constraint, need: bound, ..basic(head, positive, negative) }
}

/// A weight rule; each literal is an atom and its weight.
pub fn weight(head: usize, bound: u32, positive: &[(usize, u32)], negative: &[(usize, u32)]) -> Rule {
    let literals =
        |pairs: &[(usize, u32)]| pairs.iter().map(|&(atom, weight)| Literal { atom, weight }).collect::<Vec<_>>();
    Rule {
        kind: Kind::Weight,
        heads: vec![head],
        need: bound,
        positive: literals(positive),
        negative: literals(negative),
    }
}

fn ones(atoms: &[usize]) -> Vec<Literal> {
    atoms.iter().map(|&atom| Literal { atom, weight: 1 }).collect()
}

/// The shortest form of each number, one after another.
pub fn bytes_of(numbers: &[u32]) -> Vec<u8> {
    numbers.iter().flat_map(|&number| number_bytes(number)).collect()
}

/// The shortest form of one number. Numbers above [`MOST_NUMBER`] give five
/// bytes, which a reader refuses.
pub fn number_bytes(number: u32) -> Vec<u8> {
    let mut bytes = Vec::new();
    let mut rest = number;
    while rest >= 0x80 {
        bytes.push((rest % 0x80) as u8 | 0x80);
        rest /= 0x80;
    }
    bytes.push(rest as u8);
    bytes
}

fn list_numbers(atoms: impl ExactSizeIterator<Item = usize>, numbers: &mut Vec<u32>) {
    numbers.push(number_of(atoms.len()));
    numbers.extend(atoms.map(number_of));
}

fn number_of(count: usize) -> u32 {
    u32::try_from(count).expect("counts on a sheet are small")
}

#[cfg(test)]
mod tests {
    use super::*;

    #[test]
    fn numbers_take_their_shortest_form() {
        assert_eq!(number_bytes(0), [0]);
        assert_eq!(number_bytes(127), [0x7f]);
        assert_eq!(number_bytes(128), [0x80, 0x01]);
        assert_eq!(number_bytes(512), [0x80, 0x04]);
        assert_eq!(number_bytes(1_000_000), [0xc0, 0x84, 0x3d]);
        assert_eq!(number_bytes(MOST_NUMBER), [0xff, 0xff, 0xff, 0x7f]);
    }

    #[test]
    fn the_fourth_case_has_the_papers_bytes() {
        let sheet = Sheet { atoms: 2, rules: vec![basic(1, &[], &[2]), basic(2, &[], &[1])], ..Sheet::default() };
        assert_eq!(sheet.bytes(), [1, 2, 2, 1, 1, 0, 1, 2, 1, 2, 0, 1, 1, 0, 0]);
    }
}
