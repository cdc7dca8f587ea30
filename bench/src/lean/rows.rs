//! Both tables, a column at a time: one search backwards from a destination
//! for both classes, which touches only the nodes that join.

use super::{members, union};

/// Fills both tables behind the labels that `out` begins with.
pub fn fill(near: &[u64; 64], nodes: usize, out: &mut [u8]) {
    let (labels, tables) = out.split_at_mut(nodes);
    let (free, falling) = tables.split_at_mut(nodes * nodes);
    let (mut up, mut down) = ([0; 64], [0; 64]);
    for v in 0..nodes {
        for u in members(near[v]) {
            let way = if labels[u] > labels[v] {
                &mut up
            } else {
                &mut down
            };
            way[v] |= 1 << u;
        }
    }
    falling.fill(255);
    for t in 0..nodes {
        column(&up, &down, nodes, t, free, falling);
    }
}

fn column(
    up: &[u64; 64],
    down: &[u64; 64],
    nodes: usize,
    t: usize,
    free: &mut [u8],
    falling: &mut [u8],
) {
    free[t * nodes + t] = t as u8;
    falling[t * nodes + t] = t as u8;
    let (mut all_free, mut all_falling) = (1 << t, 1 << t);
    let (mut new_free, mut new_falling): (u64, u64) = (all_free, all_falling);
    while new_free | new_falling != 0 {
        let above = union(up, new_falling);
        new_free = (union(down, new_free) | above) & !all_free;
        new_falling = above & !all_falling;
        for v in members(new_free) {
            let leads = up[v] & all_free | down[v] & all_falling;
            free[v * nodes + t] = leads.trailing_zeros() as u8;
        }
        for v in members(new_falling) {
            falling[v * nodes + t] = (down[v] & all_falling).trailing_zeros() as u8;
        }
        all_free |= new_free;
        all_falling |= new_falling;
    }
}
