//! The shortest path of a closing line: Dijkstra with a heap and an early stop.

use crate::network::{Network, FAR, NONE};
use crate::*;
use std::cmp::Reverse;
use std::collections::BinaryHeap;

/// Room for one search.
pub(crate) struct Search {
    distance: [u32; MAX_MARKS],
    /// Marks to settle: distance << 8 | mark.
    open: BinaryHeap<Reverse<u64>>,
    path: [i32; MAX_MARKS],
    path_lines: usize,
}

impl Search {
    pub fn new() -> Self {
        Search {
            distance: [0; MAX_MARKS],
            open: BinaryHeap::with_capacity(2 * MAX_LINES + 1),
            path: [0; MAX_MARKS],
            path_lines: 0,
        }
    }

    /// The path found last, from the to end: signed line numbers from 1.
    pub fn path(&self) -> &[i32] {
        &self.path[..self.path_lines]
    }
}

impl Network {
    /// Leaves the path of a closing line, from its to end, in `search.path`, and gives its length.
    pub fn find_path(&mut self, from: usize, to: usize) -> u32 {
        self.measure(from, to);
        self.follow(from, to);
        self.search.distance[to]
    }

    /// Distances in the subgraph from the from end, until the to end is next: every mark that is
    /// nearer has its own by then.
    fn measure(&mut self, from: usize, to: usize) {
        let Search { distance, open, .. } = &mut self.search;
        distance[..self.marks].fill(FAR);
        distance[from] = 0;
        open.clear();
        open.push(Reverse(from as u64));
        while let Some(Reverse(nearest)) = open.pop() {
            let (d, mark) = ((nearest >> 8) as u32, (nearest & 255) as usize);
            if mark == to {
                return;
            }
            if d != distance[mark] {
                continue;
            }
            for arm in self.subgraph.at(mark) {
                let (other, new) = (arm.other as usize, d + arm.length);
                if new < distance[other] {
                    distance[other] = new;
                    open.push(Reverse((new as u64) << 8 | other as u64));
                }
            }
        }
    }

    /// From the to end, always by the lowest line of those that begin a shortest rest.
    fn follow(&mut self, from: usize, to: usize) {
        let distance = &self.search.distance;
        let (mut mark, mut count) = (to, 0);
        while mark != from {
            let (mut line, mut next) = (NONE, from);
            for arm in self.subgraph.at(mark) {
                let other = arm.other as usize;
                if distance[other] + arm.length == distance[mark] && arm.line < line {
                    line = arm.line;
                    next = other;
                }
            }
            let number = line as i32 + 1;
            let forward = self.from[line as usize] as usize == mark;
            self.search.path[count] = if forward { number } else { -number };
            count += 1;
            mark = next;
        }
        self.search.path_lines = count;
    }
}
