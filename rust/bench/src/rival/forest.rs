//! Classes of nodes as parents.

/// The root above a node, with path halving.
pub fn root<const NODES: usize>(parent: &mut [u16; NODES], node: u16) -> usize {
    let mut node = usize::from(node);
    loop {
        let above = usize::from(parent[node]);
        let next = parent[above];
        if usize::from(next) == above {
            return above;
        }
        parent[node] = next;
        node = usize::from(next);
    }
}
