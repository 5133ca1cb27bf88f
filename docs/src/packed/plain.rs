// Packed shapes as a plain program: node by node, a bit at a time.

// The most carets of a shape, and the two refusals.
pub const CARETS: usize = 8193;
pub const NOT_TREE: u64 = 15;
pub const SHORT_BUFFER: u64 = 7;

// A value, or the number of a refusal.
pub type Answer = Result<usize, u64>;

fn is_caret(numbers: &[u64], at: usize) -> bool {
    numbers[at / 64] >> (at % 64) & 1 == 1
}

// The nodes of a packed shape: it closes within the bound, its unused bits are zero and its summary is right.
fn check(numbers: &[u64], summary: &[u16]) -> Answer {
    let (mut at, mut pending, mut carets) = (0, 1, 0);
    while pending > 0 {
        if at > 2 * CARETS || at / 64 >= numbers.len() || at / 64 >= summary.len() {
            return Err(NOT_TREE);
        }
        if at % 64 == 0 && summary[at / 64] != carets {
            return Err(NOT_TREE);
        }
        if is_caret(numbers, at) {
            pending += 1;
            carets += 1;
        } else {
            pending -= 1;
        }
        at += 1;
    }
    if at % 64 > 0 && numbers[at / 64] >> (at % 64) != 0 {
        return Err(NOT_TREE);
    }
    Ok(at)
}

// The same, where the shape has the node.
fn check_node(numbers: &[u64], summary: &[u16], node: u64) -> Answer {
    let nodes = check(numbers, summary)?;
    if node >= nodes as u64 {
        return Err(NOT_TREE);
    }
    Ok(nodes)
}

fn is_tree(shape: &[u8]) -> bool {
    let mut pending = 1usize;
    for &node in shape {
        if pending == 0 || node > 1 {
            return false;
        }
        pending = pending + 2 * node as usize - 1;
    }
    pending == 0 && shape.len() <= 2 * CARETS + 1
}

fn write(shape: &[u8], numbers: &mut [u64], summary: &mut [u16]) {
    let mut carets = 0;
    for (at, &node) in shape.iter().enumerate() {
        if at % 64 == 0 {
            numbers[at / 64] = 0;
            summary[at / 64] = carets;
        }
        numbers[at / 64] |= (node as u64) << (at % 64);
        carets += node as u16;
    }
}

pub fn pack_shape(shape: &[u8], numbers: &mut [u64], summary: &mut [u16]) -> Answer {
    if !is_tree(shape) {
        return Err(NOT_TREE);
    }
    let n = shape.len().div_ceil(64);
    if numbers.len() < n || summary.len() < n {
        return Err(SHORT_BUFFER);
    }
    write(shape, numbers, summary);
    Ok(n)
}

pub fn unpack_shape(numbers: &[u64], summary: &[u16], shape: &mut [u8]) -> Answer {
    let nodes = check(numbers, summary)?;
    if shape.len() < nodes {
        return Err(SHORT_BUFFER);
    }
    for at in 0..nodes {
        shape[at] = is_caret(numbers, at) as u8;
    }
    Ok(nodes)
}

pub fn carets_before(numbers: &[u64], summary: &[u16], node: u64) -> Answer {
    check_node(numbers, summary, node)?;
    Ok((0..node as usize).filter(|&at| is_caret(numbers, at)).count())
}

pub fn subtree_end(numbers: &[u64], summary: &[u16], node: u64) -> Answer {
    check_node(numbers, summary, node)?;
    let (mut at, mut pending) = (node as usize, 1);
    while pending > 0 {
        if is_caret(numbers, at) {
            pending += 1;
        } else {
            pending -= 1;
        }
        at += 1;
    }
    Ok(at)
}

pub fn grow_caret(numbers: &mut [u64], summary: &mut [u16], leaf: u64) -> Answer {
    let nodes = check(numbers, summary)?;
    if leaf > (nodes / 2) as u64 || nodes > 2 * CARETS {
        return Err(NOT_TREE);
    }
    let n = (nodes + 2).div_ceil(64);
    if numbers.len() < n || summary.len() < n {
        return Err(SHORT_BUFFER);
    }
    let mut shape: Vec<u8> = (0..nodes).map(|at| is_caret(numbers, at) as u8).collect();
    let mut leaves = (0..nodes).filter(|&at| shape[at] == 0);
    let node = leaves.nth(leaf as usize).unwrap();
    shape.splice(node..=node, [1, 0, 0]);
    write(&shape, numbers, summary);
    Ok(n)
}
