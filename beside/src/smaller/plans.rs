//! Plans a little smaller than a given one.

use super::{lessenings, without};
use crate::plan::Node;

/// With so many segments or fewer, every set of them is tried with fewer rows at once: fields of a pack have equal rows.
const SEGMENTS_AT_ONCE: usize = 8;

/// A child in place of its parent, a child left out, its rows with it or given to another, or a child made smaller.
pub fn fewer_nodes(node: &Node) -> Vec<Node> {
    let children = node.children();
    let mut nodes = children.to_vec();
    for place in 0..children.len() {
        if children.len() > 1 {
            let others = without(children, place);
            nodes.push(remade(node, others.clone()));
            if let Node::Concat(_) = node {
                nodes.push(Node::Concat(first_longer(others, children[place].rows())));
            }
        }
        for child in fewer_nodes(&children[place]) {
            let mut changed = children.to_vec();
            changed[place] = child;
            nodes.push(remade(node, changed));
        }
    }
    nodes
}

/// Some of the segments with fewer rows each.
pub fn fewer_rows(plan: &Node) -> Vec<Node> {
    let leaves = plan.leaves();
    let most_rows = leaves.iter().map(|leaf| leaf.1).max().unwrap_or(0);
    let mut segments: Vec<u32> = leaves.iter().map(|leaf| leaf.0).collect();
    segments.sort_unstable();
    segments.dedup();
    let mut plans = Vec::new();
    for chosen in subsets(&segments) {
        for less in lessenings(most_rows) {
            let rows_of = |segment, rows: u32| if chosen.contains(&segment) { rows - less.min(rows) } else { rows };
            plans.push(levelled(&with_leaves(plan, &|name, rows| (name, rows_of(name, rows)))));
        }
    }
    plans
}

/// Every set of them, or the whole and the single ones where there are many.
fn subsets(segments: &[u32]) -> Vec<Vec<u32>> {
    if segments.len() > SEGMENTS_AT_ONCE {
        let single = segments.iter().map(|segment| vec![*segment]);
        return single.chain([segments.to_vec()]).collect();
    }
    let chosen = |set: u32| {
        let places = (0..segments.len()).filter(move |place| set >> place & 1 == 1);
        places.map(|place| segments[place]).collect()
    };
    (1..1 << segments.len()).map(chosen).collect()
}

/// The nodes, the first of them with so many rows more: in a concat its first child has them, in a pack each field.
fn first_longer(mut nodes: Vec<Node>, more: u64) -> Vec<Node> {
    nodes[0] = longer(&nodes[0], more);
    nodes
}

fn longer(node: &Node, more: u64) -> Node {
    match node {
        Node::Segment { segment, rows } => {
            let rows = u32::try_from(u64::from(*rows) + more).unwrap_or(u32::MAX);
            Node::Segment { segment: *segment, rows }
        }
        Node::Concat(children) => Node::Concat(first_longer(children.clone(), more)),
        Node::Pack(fields) => Node::Pack(fields.iter().map(|field| longer(field, more)).collect()),
    }
}

/// The plan with each leaf's segment and rows changed.
fn with_leaves(node: &Node, change: &impl Fn(u32, u32) -> (u32, u32)) -> Node {
    if let Node::Segment { segment, rows } = *node {
        let (segment, rows) = change(segment, rows);
        return Node::Segment { segment, rows };
    }
    remade(node, node.children().iter().map(|child| with_leaves(child, change)).collect())
}

/// A join of the same kind with other children.
fn remade(node: &Node, children: Vec<Node>) -> Node {
    match node {
        Node::Pack(_) => Node::Pack(children),
        _ => Node::Concat(children),
    }
}

/// The plan with the fields of each pack cut to the rows of the shortest.
fn levelled(node: &Node) -> Node {
    let children: Vec<Node> = node.children().iter().map(levelled).collect();
    match node {
        Node::Segment { .. } => node.clone(),
        Node::Concat(_) => Node::Concat(children),
        Node::Pack(_) => Node::Pack(children.iter().map(|field| first_rows(field, node.rows())).collect()),
    }
}

/// The first `rows` rows of a node; further leaves have none.
fn first_rows(node: &Node, rows: u64) -> Node {
    let mut left = rows;
    let mut front = |child: &Node| {
        let kept = left.min(child.rows());
        left -= kept;
        first_rows(child, kept)
    };
    match node {
        Node::Segment { segment, .. } => Node::Segment { segment: *segment, rows: rows as u32 },
        Node::Concat(children) => Node::Concat(children.iter().map(&mut front).collect()),
        Node::Pack(fields) => Node::Pack(fields.iter().map(|field| first_rows(field, rows)).collect()),
    }
}

/// Segments numbered from 0, in tree order.
pub fn renamed(plan: &Node) -> Node {
    let mut names: Vec<u32> = Vec::new();
    for (segment, _) in plan.leaves() {
        if !names.contains(&segment) {
            names.push(segment);
        }
    }
    let number = |name| names.iter().position(|known| *known == name).unwrap_or(0) as u32;
    with_leaves(plan, &|name, rows| (number(name), rows))
}

#[cfg(test)]
mod tests {
    use super::*;

    fn segment(segment: u32, rows: u32) -> Node {
        Node::Segment { segment, rows }
    }

    #[test]
    fn a_concat_has_as_many_rows_without_a_child() {
        let two = |name, rows| Node::Pack(vec![segment(name, rows), Node::Concat(vec![segment(name, 2), segment(9, rows - 2)])]);
        let smaller = fewer_nodes(&Node::Concat(vec![two(1, 5), two(2, 4)]));
        let longer = Node::Pack(vec![segment(1, 9), Node::Concat(vec![segment(1, 6), segment(9, 3)])]);
        assert!(smaller.contains(&Node::Concat(vec![longer])));
        assert!(smaller.contains(&Node::Concat(vec![two(1, 5)])));
        assert!(fewer_nodes(&Node::Pack(vec![segment(1, 4), segment(2, 4)])).iter().all(|plan| plan.rows() == 4));
    }
}
