// The shapes that are measured, a byte for each node.

use crate::words::Random;

pub fn right_comb(carets: usize) -> Vec<u8> {
    let mut shape = [1, 0].repeat(carets);
    shape.push(0);
    shape
}

pub fn left_spine(carets: usize) -> Vec<u8> {
    [vec![1; carets], vec![0; carets + 1]].concat()
}

// Each shape is as likely: carets and leaves in random order, begun at the one place where they are a tree,
// behind the first node at which the leaves lead by most.
pub fn random(carets: usize, random: &mut Random) -> Vec<u8> {
    let mut nodes = left_spine(carets);
    for i in (1..nodes.len()).rev() {
        nodes.swap(i, random.below(i + 1));
    }
    let (mut height, mut lowest, mut start) = (0i64, 0, 0);
    for (i, &node) in nodes.iter().enumerate() {
        height += 2 * node as i64 - 1;
        if height < lowest {
            lowest = height;
            start = i + 1;
        }
    }
    let n = nodes.len();
    nodes.rotate_left(start % n);
    nodes
}
