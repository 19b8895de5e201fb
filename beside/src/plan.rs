//! A plan as a tree, and what its rows are: document 01's definition and nothing of either side.

#[derive(Clone, Debug, PartialEq, Eq)]
pub enum Node {
    Segment { segment: u32, rows: u32 },
    Concat(Vec<Node>),
    Pack(Vec<Node>),
}

/// Rows that follow one another in every column: for each column a segment and its first row.
#[derive(Clone, Debug, PartialEq, Eq)]
pub struct Piece {
    pub rows: u64,
    pub columns: Vec<(u32, u64)>,
}

impl Piece {
    /// `rows` rows of it from `from` on.
    pub fn part(&self, from: u64, rows: u64) -> Self {
        let columns = self.columns.iter().map(|&(segment, first)| (segment, first + from));
        Self { rows, columns: columns.collect() }
    }
}

impl Node {
    pub fn children(&self) -> &[Node] {
        match self {
            Node::Segment { .. } => &[],
            Node::Concat(children) | Node::Pack(children) => children,
        }
    }

    /// The node itself and all below it.
    pub fn nodes(&self) -> Vec<&Node> {
        let below = self.children().iter().flat_map(Node::nodes);
        [self].into_iter().chain(below).collect()
    }

    /// How many joins of one child stand in a row from here on down, each but the first the child of the one before.
    pub fn joins_of_one(&self) -> usize {
        match self.children() {
            [child] => 1 + child.joins_of_one(),
            _ => 0,
        }
    }

    pub fn rows(&self) -> u64 {
        match self {
            Node::Segment { rows, .. } => u64::from(*rows),
            Node::Concat(children) => children.iter().map(Node::rows).sum(),
            Node::Pack(fields) => fields.iter().map(Node::rows).min().unwrap_or(0),
        }
    }

    /// The segment and rows of each leaf, in tree order.
    pub fn leaves(&self) -> Vec<(u32, u32)> {
        match self {
            Node::Segment { segment, rows } => vec![(*segment, *rows)],
            _ => self.children().iter().flat_map(Node::leaves).collect(),
        }
    }

    /// All its rows, in order, as pieces of one row or more.
    pub fn pieces(&self) -> Vec<Piece> {
        match self {
            Node::Segment { rows: 0, .. } => Vec::new(),
            Node::Segment { segment, rows } => {
                vec![Piece { rows: u64::from(*rows), columns: vec![(*segment, 0)] }]
            }
            Node::Concat(children) => children.iter().flat_map(Node::pieces).collect(),
            Node::Pack(fields) => {
                let fields = fields.iter().map(Node::pieces);
                fields.reduce(|left, right| beside(&left, &right)).unwrap_or_default()
            }
        }
    }
}

/// Two lists of pieces side by side, cut wherever one of the two is.
fn beside(left: &[Piece], right: &[Piece]) -> Vec<Piece> {
    let mut joined = Vec::new();
    let (mut i, mut j) = ((0, 0), (0, 0));
    while let (Some(a), Some(b)) = (left.get(i.0), right.get(j.0)) {
        let rows = (a.rows - i.1).min(b.rows - j.1);
        let mut piece = a.part(i.1, rows);
        piece.columns.extend(b.part(j.1, rows).columns);
        joined.push(piece);
        i = after(i, rows, a);
        j = after(j, rows, b);
    }
    joined
}

/// The place (piece, row of it) that lies `rows` rows on, within one piece.
fn after(place: (usize, u64), rows: u64, piece: &Piece) -> (usize, u64) {
    if place.1 + rows == piece.rows { (place.0 + 1, 0) } else { (place.0, place.1 + rows) }
}

/// Of these pieces the `rows` rows from row `start` on.
pub fn cut(pieces: &[Piece], start: u64, rows: u64) -> Vec<Piece> {
    let end = start + rows;
    let mut kept = Vec::new();
    let mut at = 0;
    for piece in pieces {
        let from = start.max(at);
        let to = end.min(at + piece.rows);
        if from < to {
            kept.push(piece.part(from - at, to - from));
        }
        at += piece.rows;
    }
    kept
}

#[cfg(test)]
mod tests {
    use super::*;

    fn segment(segment: u32, rows: u32) -> Node {
        Node::Segment { segment, rows }
    }

    #[test]
    fn a_pack_is_cut_where_a_field_is() {
        let right = Node::Concat(vec![segment(2, 1), segment(9, 0), segment(3, 3)]);
        let plan = Node::Pack(vec![segment(1, 4), right]);
        let first = Piece { rows: 1, columns: vec![(1, 0), (2, 0)] };
        let second = Piece { rows: 3, columns: vec![(1, 1), (3, 0)] };
        assert_eq!(plan.pieces(), [first, second]);
        assert_eq!(plan.rows(), 4);
    }

    #[test]
    fn a_cut_takes_parts_of_pieces() {
        let pieces = Node::Concat(vec![segment(1, 3), segment(2, 2)]).pieces();
        let first = Piece { rows: 1, columns: vec![(1, 2)] };
        let second = Piece { rows: 1, columns: vec![(2, 0)] };
        assert_eq!(cut(&pieces, 2, 2), [first, second]);
        assert_eq!(cut(&pieces, 2, 0), []);
    }
}
