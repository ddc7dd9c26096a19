//! "Regions": the walk with a stack of (component, next neighbour), and the
//! backward collection, over members (components by rising id).

/// Edges between members, both ways, each without repeats and rising.
pub struct Edges {
    pub forward: Vec<Vec<usize>>,
    pub backward: Vec<Vec<usize>>,
}

impl Edges {
    /// From pairs of members in any order, repeats allowed.
    pub fn new(count: usize, pairs: &[(usize, usize)]) -> Self {
        let mut forward = vec![Vec::new(); count];
        let mut backward = vec![Vec::new(); count];
        for &(source, sink) in pairs {
            forward[source].push(sink);
            backward[sink].push(source);
        }
        for row in forward.iter_mut().chain(&mut backward) {
            row.sort_unstable();
            row.dedup();
        }
        Self { forward, backward }
    }
}

/// Members in the order in which they finish.
fn finished(rows: &[Vec<usize>]) -> Vec<usize> {
    let mut seen = vec![false; rows.len()];
    let mut order = Vec::new();
    for start in 0..rows.len() {
        if seen[start] {
            continue;
        }
        seen[start] = true;
        let mut stack = vec![(start, 0)];
        while let Some((member, next)) = stack.pop() {
            let Some(&neighbour) = rows[member].get(next) else {
                order.push(member);
                continue;
            };
            stack.push((member, next + 1));
            if !seen[neighbour] {
                seen[neighbour] = true;
                stack.push((neighbour, 0));
            }
        }
    }
    order
}

/// Marks all that the marked ones reach, over members that are free.
pub fn spread(rows: &[Vec<usize>], marked: &mut [bool], free: impl Fn(usize) -> bool) {
    let mut todo: Vec<usize> = (0..rows.len()).filter(|&member| marked[member]).collect();
    while let Some(member) = todo.pop() {
        for &next in &rows[member] {
            if !marked[next] && free(next) {
                marked[next] = true;
                todo.push(next);
            }
        }
    }
}

/// The region number of each member.
pub fn regions(edges: &Edges) -> Vec<usize> {
    let count = edges.forward.len();
    let mut region = vec![usize::MAX; count];
    let mut found = 0;
    for &start in finished(&edges.forward).iter().rev() {
        if region[start] != usize::MAX {
            continue;
        }
        let mut marked = vec![false; count];
        marked[start] = true;
        spread(&edges.backward, &mut marked, |member| {
            region[member] == usize::MAX
        });
        for member in (0..count).filter(|&member| marked[member]) {
            region[member] = found;
        }
        found += 1;
    }
    region
}
