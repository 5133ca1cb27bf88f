// The tree pair and the length of a form as a plain program. A tree is built from its last leaf to its first: a leaf
// with exponent e takes the next e trees to its right, one after the other, and what is left hangs on the right side.
// The number of carets is found by trying. The kinds of the carets are told from their places in the finished tree.

// A node of a tree, by its place in the list of the nodes; a leaf has no children.
#[derive(Clone, Copy)]
struct Node {
    children: Option<(usize, usize)>,
}

pub struct Tree {
    nodes: Vec<Node>,
    root: usize,
}

#[derive(Clone, Copy, PartialEq)]
enum Kind {
    L0,
    R0,
    RN,
    RI,
    LL,
    I0,
    IR,
}

fn exponent(table: &[u16], leaf: usize) -> u16 {
    table.get(leaf).copied().unwrap_or(0)
}

// The tree with n carets and these exponents, if there is one: the last leaf stays at the end of the right side.
fn build(table: &[u16], n: usize) -> Option<Tree> {
    if table.iter().skip(n).any(|&e| e > 0) {
        return None;
    }
    let mut nodes = vec![Node { children: None }];
    let mut row = vec![0];
    let caret = |nodes: &mut Vec<Node>, left, right| {
        nodes.push(Node { children: Some((left, right)) });
        nodes.len() - 1
    };
    for leaf in (0..n).rev() {
        nodes.push(Node { children: None });
        let mut tree = nodes.len() - 1;
        for _ in 0..exponent(table, leaf) {
            if row.len() == 1 {
                return None;
            }
            let right = row.pop().unwrap();
            tree = caret(&mut nodes, tree, right);
        }
        row.push(tree);
    }
    let mut root = row[0];
    for &tree in &row[1..] {
        root = caret(&mut nodes, tree, root);
    }
    Some(Tree { nodes, root })
}

// The smallest number of carets for which both trees exist, and the trees T− and T+.
pub fn smallest_pair(b: &[u16], a: &[u16]) -> (usize, Tree, Tree) {
    let both = |n| Some((build(a, n)?, build(b, n)?));
    let mut high = 1;
    while both(high).is_none() {
        high *= 2;
    }
    let mut low = 0;
    while low < high {
        let middle = (low + high) / 2;
        if both(middle).is_some() {
            high = middle;
        } else {
            low = middle + 1;
        }
    }
    let (minus, plus) = both(low).unwrap();
    (low, minus, plus)
}

impl Tree {
    // One byte a node, a caret in front of its left and then its right subtree.
    pub fn shape(&self) -> Vec<u8> {
        let mut bytes = Vec::new();
        let mut next = vec![self.root];
        while let Some(i) = next.pop() {
            match self.nodes[i].children {
                None => bytes.push(0),
                Some((left, right)) => {
                    bytes.push(1);
                    next.extend([right, left]);
                }
            }
        }
        bytes
    }

    // The carets from left to right: whether each is on the left side, on the right side, and has a leaf to its right.
    fn places(&self) -> Vec<(bool, bool, bool)> {
        let mut places = Vec::new();
        let mut open: Vec<(usize, bool, bool)> = Vec::new();
        let mut next = Some((self.root, true, true));
        while next.is_some() || !open.is_empty() {
            if let Some((i, on_left, on_right)) = next {
                next = self.nodes[i].children.map(|(left, _)| {
                    open.push((i, on_left, on_right));
                    (left, on_left, false)
                });
            } else {
                let (i, on_left, on_right) = open.pop().unwrap();
                let (_, right) = self.nodes[i].children.unwrap();
                places.push((on_left, on_right, self.nodes[right].children.is_none()));
                next = Some((right, false, on_right));
            }
        }
        places
    }

    fn kinds(&self) -> Vec<Kind> {
        let places = self.places();
        let interior = |k: usize| places.get(k).is_some_and(|&(on_left, on_right, _)| !on_left && !on_right);
        let last_interior = (0..places.len()).rev().find(|&k| interior(k)).unwrap_or(0);
        let kind = |(k, &(on_left, on_right, leaf)): (usize, &(bool, bool, bool))| {
            if k == 0 {
                Kind::L0
            } else if on_left {
                Kind::LL
            } else if on_right && interior(k + 1) {
                Kind::RI
            } else if on_right && k < last_interior {
                Kind::RN
            } else if on_right {
                Kind::R0
            } else if leaf {
                Kind::I0
            } else {
                Kind::IR
            }
        };
        places.iter().enumerate().map(kind).collect()
    }
}

// Fordham's weight of two carets with the same number.
fn weight(x: Kind, y: Kind) -> u64 {
    use Kind::*;
    let place = |kind| [R0, RN, RI, LL, I0, IR].iter().position(|&k| k == kind);
    let table = [
        [0, 2, 2, 1, 1, 3],
        [2, 2, 2, 1, 1, 3],
        [2, 2, 2, 1, 3, 3],
        [1, 1, 1, 2, 2, 2],
        [1, 1, 3, 2, 2, 4],
        [3, 3, 3, 2, 4, 4],
    ];
    match (place(x), place(y)) {
        (Some(i), Some(j)) => table[i][j],
        (None, None) => 0,
        _ => panic!("L0 with another kind"),
    }
}

pub fn length(minus: &Tree, plus: &Tree) -> u64 {
    minus.kinds().iter().zip(plus.kinds()).map(|(&x, y)| weight(x, y)).sum()
}

// The tables of a record that is known to be right.
pub fn tables(record: &[u8]) -> [Vec<u16>; 2] {
    let pair = |at: usize| u16::from_be_bytes([record[at], record[at + 1]]);
    let mut at = 0;
    [(); 2].map(|_| {
        let mut table = Vec::new();
        let end = at + 3 + pair(at + 1) as usize;
        at += 3;
        while at < end {
            table.resize(pair(at) as usize, 0);
            table.push(pair(at + 2));
            at += 4;
        }
        table
    })
}

// The record of two tables.
pub fn record(b: &[u16], a: &[u16]) -> Vec<u8> {
    let mut bytes = Vec::new();
    for (tag, table) in [(1, b), (2, a)] {
        let start = bytes.len();
        bytes.extend([tag, 0, 0]);
        for (i, &e) in table.iter().enumerate().filter(|(_, &e)| e > 0) {
            bytes.extend((i as u16).to_be_bytes());
            bytes.extend(e.to_be_bytes());
        }
        let size = (bytes.len() - start - 3) as u16;
        bytes[start + 1..start + 3].copy_from_slice(&size.to_be_bytes());
    }
    bytes
}
