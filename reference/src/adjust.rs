//! Adjustment by sweeps, and the correction rate.

use crate::answers::{refuse, refuse_at, Refusal};
use crate::book::within;
use crate::network::{Network, NONE};
use crate::*;

type Heights = [i64; MAX_MARKS];
/// The held height of each held mark.
type Held = [Option<i64>; MAX_MARKS];

/// Fills the heights of marks 1 to b. Gives the number of sweeps.
pub(crate) fn adjust(
    network: &mut Network,
    book: Lent,
    heights: &mut [i64],
) -> Result<i64, Refusal> {
    book.test()?;
    if heights.len() < book.b as usize {
        return refuse(10);
    }
    network.load(book.b, book.t, book.lines);
    let mut held = [None; MAX_MARKS];
    for entry in book.held.chunks_exact(HELD) {
        held[entry[0] as usize - 1] = Some(entry[1]);
    }
    let mut work = start(network, &held)?;
    let sweeps = sweep(network, &held, &mut work)?;
    heights[..network.marks].copy_from_slice(&work[..network.marks]);
    Ok(sweeps)
}

/// What a line adds on the way to a mark that is one of its ends.
fn toward(network: &Network, line: u16, mark: usize) -> i64 {
    let line = line as usize;
    if network.to[line] as usize == mark {
        network.difference[line]
    } else {
        -network.difference[line]
    }
}

/// Heights over the root of each piece, along the tree.
fn over_root(network: &Network) -> Heights {
    let mut heights = [0; MAX_MARKS];
    for &mark in &network.order[..network.marks] {
        let mark = mark as usize;
        let line = network.up_line[mark];
        if line != NONE {
            heights[mark] = heights[network.up[mark] as usize] + toward(network, line, mark);
        }
    }
    heights
}

/// The heights before the first sweep: along the tree from the lowest held mark of each piece, then
/// every held mark at its own.
fn start(network: &Network, held: &Held) -> Result<Heights, Refusal> {
    let mut heights = over_root(network);
    // For each root what brings the lowest held mark of its piece to its held height.
    let mut lift = [None; MAX_MARKS];
    for mark in (0..network.marks).rev() {
        if let Some(height) = held[mark] {
            lift[network.root[mark] as usize] = Some(height - heights[mark]);
        }
    }
    for mark in 0..network.marks {
        // A root is the lowest mark of its piece, so the first mark without a lift is one.
        let Some(lift) = lift[network.root[mark] as usize] else {
            return refuse_at(11, mark as i64 + 1);
        };
        heights[mark] += lift;
    }
    for mark in 0..network.marks {
        if !within(heights[mark], MAX_HEIGHT) {
            return refuse_at(13, mark as i64 + 1);
        }
        heights[mark] = held[mark].unwrap_or(heights[mark]);
    }
    Ok(heights)
}

/// g / d to the nearest whole number, halves toward zero.
fn nearest(g: i64, d: i64) -> i64 {
    let (size, d) = (g.unsigned_abs(), d as u64);
    if 2 * size <= d {
        return 0;
    }
    let whole = (2 * size + d - 1) / (2 * d);
    g.signum() * whole as i64
}

/// A free mark with what the sweeps need of its lines.
struct Free {
    mark: usize,
    /// The sum of its weights, and the sum of weight times difference toward it.
    weights: i64,
    differences: i64,
    /// Its lines in the list of all: other end and weight.
    lines: std::ops::Range<usize>,
}

/// The free marks by number, and the list of their lines.
fn free_marks(network: &Network, held: &Held) -> (Vec<Free>, Vec<(usize, i64)>) {
    let (mut free, mut ends) = (Vec::with_capacity(MAX_MARKS), Vec::with_capacity(2 * MAX_LINES));
    for mark in (0..network.marks).filter(|&mark| held[mark].is_none()) {
        let begin = ends.len();
        let (mut weights, mut differences) = (0, 0);
        for arm in network.standing.at(mark) {
            let weight = 1_000_000 / arm.length as i64;
            weights += weight;
            differences += weight * toward(network, arm.line, mark);
            ends.push((arm.other as usize, weight));
        }
        free.push(Free { mark, weights, differences, lines: begin..ends.len() });
    }
    (free, ends)
}

/// Sweeps until nothing moves. Gives the number of sweeps.
fn sweep(network: &Network, held: &Held, heights: &mut Heights) -> Result<i64, Refusal> {
    let (free, ends) = free_marks(network, held);
    for sweep in 1..=MAX_SWEEPS {
        let mut moved = false;
        for f in &free {
            let mut g = f.differences - f.weights * heights[f.mark];
            for &(other, weight) in &ends[f.lines.clone()] {
                g += weight * heights[other];
            }
            let by = nearest(g, f.weights);
            if by != 0 {
                moved = true;
                heights[f.mark] += by;
                if !within(heights[f.mark], MAX_HEIGHT) {
                    return refuse_at(13, f.mark as i64 + 1);
                }
            }
        }
        if !moved {
            return Ok(sweep);
        }
    }
    refuse(12)
}

/// The correction rate of one line by the lent heights.
pub(crate) fn rate(book: Lent, heights: &[i64], line: i64) -> Result<Rated, Refusal> {
    book.test_beside(i64::try_from(heights.len()) == Ok(book.b))?;
    let numbers = book.line(line)?;
    if let Some(mark) = heights.iter().position(|&height| !within(height, MAX_HEIGHT)) {
        return refuse_at(13, mark as i64 + 1);
    }
    if numbers[4] == 0 {
        return Ok(Rated { line, withdrawn: 1, ..Rated::default() });
    }
    let adjusted = heights[numbers[1] as usize - 1] - heights[numbers[0] as usize - 1];
    let correction = adjusted - numbers[2];
    let rate = correction as f64 / numbers[3] as f64;
    Ok(Rated { line, correction, rate, ..Rated::default() })
}
