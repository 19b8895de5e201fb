//! Every small plan: all trees with a number of nodes, over a few segments of 0 to 2 rows.

use std::slice;

use crate::plan::Node;

/// The most rows of a segment.
const MOST_ROWS: u32 = 2;

/// Every tree with exactly so many nodes. `rows` has the rows of segments 1, 2 and so on.
fn trees(nodes: usize, rows: &[u32]) -> Vec<Node> {
    if nodes == 1 {
        let leaf = |(segment, &rows)| Node::Segment { segment, rows };
        return (1..).zip(rows).map(leaf).collect();
    }
    let joined = forests(nodes - 1, rows).into_iter();
    joined.flat_map(|children| [Node::Concat(children.clone()), Node::Pack(children)]).collect()
}

/// Every list of trees that have so many nodes together.
fn forests(nodes: usize, rows: &[u32]) -> Vec<Vec<Node>> {
    if nodes == 0 {
        return vec![Vec::new()];
    }
    let mut lists = Vec::new();
    for front in 1..=nodes {
        let after = forests(nodes - front, rows);
        for tree in trees(front, rows) {
            let with_tree = after.iter().map(|list| [slice::from_ref(&tree), list].concat());
            lists.extend(with_tree);
        }
    }
    lists
}

/// Every list of so many row counts, from 0 to `MOST_ROWS` each.
fn row_counts(segments: usize) -> Vec<Vec<u32>> {
    let mut lists = vec![Vec::new()];
    for _ in 0..segments {
        let longer = |list: Vec<u32>| (0..=MOST_ROWS).map(move |rows| [&list[..], &[rows]].concat());
        lists = lists.into_iter().flat_map(longer).collect();
    }
    lists
}

/// Every plan with exactly so many nodes, once, also those that are refused.
pub fn plans(nodes: usize, segments: usize) -> Vec<Node> {
    let mut plans = Vec::new();
    for rows in row_counts(segments) {
        let named = |plan: &Node, segment| plan.leaves().iter().any(|leaf| leaf.0 == segment);
        // A segment that no leaf names has 0 rows, so that its rows make no second copy of a plan.
        let once = |plan: &Node| (1..).zip(&rows).all(|(segment, &rows)| rows == 0 || named(plan, segment));
        plans.extend(trees(nodes, &rows).into_iter().filter(once));
    }
    plans
}

#[cfg(test)]
mod tests {
    use super::*;

    #[test]
    fn the_trees_are_all_there_once() {
        // One leaf; joins of one; two joins of one, and joins of two; by hand for four nodes: 2 × (6 + 2 + 2 + 1).
        let counts: Vec<usize> = (1..=4).map(|nodes| trees(nodes, &[1]).len()).collect();
        assert_eq!(counts, [1, 2, 6, 22]);
        let mut plans: Vec<String> = plans(4, 2).iter().map(|plan| format!("{plan:?}")).collect();
        let all = plans.len();
        plans.sort();
        plans.dedup();
        assert_eq!(plans.len(), all);
    }
}
