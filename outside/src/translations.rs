//! Two families of problems as sheets, translated as in Niemelä and Simons,
//! "Smodels - an implementation of the stable model and well-founded semantics
//! for normal logic programs": n-colouring of graphs and propositional
//! satisfiability.

use crate::draw::Draw;
use crate::sheet::{Sheet, basic};

/// The ring graph of so many vertices (at least 3): the neighbours of each.
pub fn ring(vertices: usize) -> Vec<Vec<usize>> {
    (0..vertices)
        .map(|vertex| {
            let mut neighbours = vec![(vertex + vertices - 1) % vertices, (vertex + 1) % vertices];
            neighbours.sort_unstable();
            neighbours
        })
        .collect()
}

/// The colourings of a graph. Atom `vertex * colours + colour + 1` says that
/// the vertex has the colour; it holds unless a neighbour has the colour or
/// the vertex has another. The last atom holds if a vertex has no colour,
/// and is a compute-out atom.
pub fn colouring(graph: &[Vec<usize>], colours: usize) -> Sheet {
    let atom = |vertex: usize, colour: usize| vertex * colours + colour + 1;
    let colourless = graph.len() * colours + 1;
    let mut rules = Vec::new();
    for (vertex, neighbours) in graph.iter().enumerate() {
        for colour in 0..colours {
            let near = neighbours.iter().map(|&neighbour| atom(neighbour, colour));
            let others = (0..colours).filter(|&other| other != colour).map(|other| atom(vertex, other));
            let mut barred = near.chain(others).collect::<Vec<_>>();
            barred.sort_unstable();
            rules.push(basic(atom(vertex, colour), &[], &barred));
        }
        let all = (0..colours).map(|colour| atom(vertex, colour)).collect::<Vec<_>>();
        rules.push(basic(colourless, &[], &all));
    }
    Sheet { atoms: colourless, rules, compute_in: vec![], compute_out: vec![colourless] }
}

/// A clause: variables from 0, each with whether it is negated.
pub type Clause = [(usize, bool); 3];

/// Clauses of three different variables, each negated or not by chance.
pub fn random_clauses(draw: &mut Draw, variables: usize, clauses: usize) -> Vec<Clause> {
    let clause = |draw: &mut Draw| {
        let picked = draw.subset(3, variables);
        std::array::from_fn(|index| (picked[index] - 1, draw.chance(1, 2)))
    };
    (0..clauses).map(|_| clause(draw)).collect()
}

/// The satisfying assignments of the clauses. Variable v is atom 2v + 1 and
/// its opposite is atom 2v + 2; each holds unless the other does. Then comes
/// an atom for each clause, which holds if a literal of the clause does, and
/// is a compute-in atom.
pub fn satisfiability(variables: usize, clauses: &[Clause]) -> Sheet {
    let mut rules = Vec::new();
    for variable in 0..variables {
        let (atom, opposite) = (2 * variable + 1, 2 * variable + 2);
        rules.push(basic(atom, &[], &[opposite]));
        rules.push(basic(opposite, &[], &[atom]));
    }
    let first = 2 * variables + 1;
    for (index, clause) in clauses.iter().enumerate() {
        for &(variable, negated) in clause {
            rules.push(basic(first + index, &[2 * variable + 1 + usize::from(negated)], &[]));
        }
    }
    let atoms = 2 * variables + clauses.len();
    Sheet { atoms, rules, compute_in: (first..=atoms).collect(), compute_out: vec![] }
}

#[cfg(test)]
mod tests {
    use super::*;
    use crate::definition;
    use crate::plain::forcing::Program;
    use crate::plain::search::first_model;

    fn count_colourings(vertices: usize, colours: usize) -> usize {
        definition::models(&colouring(&ring(vertices), colours)).len()
    }

    #[test]
    fn models_are_colourings() {
        // A ring of v has (c - 1)^v + (-1)^v (c - 1) colourings.
        assert_eq!(count_colourings(3, 2), 0);
        assert_eq!(count_colourings(4, 2), 2);
        assert_eq!(count_colourings(3, 3), 6);
        assert_eq!(count_colourings(4, 3), 18);
    }

    #[test]
    fn odd_rings_have_no_colouring_with_two() {
        assert_eq!(first_model(&Program::of(&colouring(&ring(15), 2))), None);
        assert!(first_model(&Program::of(&colouring(&ring(14), 2))).is_some());
    }

    #[test]
    fn models_are_satisfying_assignments() {
        for seed in 0..50 {
            let clauses = random_clauses(&mut Draw::new("clauses", seed), 4, 5);
            let holds = |assignment: usize| {
                let literal = |&(variable, negated): &(usize, bool)| (assignment >> variable & 1 == 1) != negated;
                clauses.iter().all(|clause| clause.iter().any(literal))
            };
            let assignments = (0..16).filter(|&assignment| holds(assignment)).count();
            let sheet = satisfiability(4, &clauses);
            assert_eq!(definition::models(&sheet).len(), assignments, "seed {seed}");
        }
    }
}
