// What a program leaves uncut. By the tool's method: a grid of bits, in which each move sets an interval of each row that it reaches, and
// rows of points inside from which these are taken. By the obvious one: each point inside asks each move.
use crate::{Bit, Edge, Move, Point, Scene, Spot, Text, Way, product};
use std::ops::Range;

// The points of a report: multiples of the pitch.
struct Lattice {
    x: i32,
    y: i32,
    pitch: i32,
    columns: usize,
    rows: usize,
}

impl Lattice {
    fn of(edges: &[Edge], pitch: i32) -> Lattice {
        let ticks = |low: i32, high: i32| {
            let first = low + (-low).rem_euclid(pitch);
            (first, ((high - first).div_euclid(pitch) + 1).max(0) as usize)
        };
        let side = |along: fn(Point) -> i32| {
            let (low, high) = (edges.iter().map(|e| along(e.a)).min(), edges.iter().map(|e| along(e.a)).max());
            low.zip(high).map_or((0, 0), |(low, high)| ticks(low, high))
        };
        let ((x, columns), (y, rows)) = (side(|p| p.x), side(|p| p.y));
        Lattice { x, y, pitch, columns, rows }
    }

    fn words(&self) -> usize {
        self.columns.div_ceil(64)
    }

    fn last(&self) -> i32 {
        self.x + (self.columns as i32 - 1) * self.pitch
    }

    fn point(&self, row: usize, column: usize) -> Point {
        Point { x: self.x + column as i32 * self.pitch, y: self.y + row as i32 * self.pitch }
    }

    // The numbers of the multiples from the one to the other of so many from the first on.
    fn numbers(&self, first: i32, count: usize, low: i32, high: i32) -> Range<usize> {
        let from = (low - first + self.pitch - 1).div_euclid(self.pitch).max(0);
        let end = ((high - first).div_euclid(self.pitch) + 1).min(count as i32);
        from as usize..end.max(from) as usize
    }
}

// A move from an end below the surface.
struct Cut<'a> {
    from: Spot,
    to: Spot,
    bit: &'a Bit,
}

impl Cut<'_> {
    fn of<'a>(mv: &Move, bit: &'a Bit) -> Option<Cut<'a>> {
        let (from, to) = if mv.from.h < 0 { (mv.from, mv.to) } else { (mv.to, mv.from) };
        (from.h < 0).then_some(Cut { from, to, bit })
    }

    fn lean(&self, v: Way, d: i64, w: Way, e: i64) -> i64 {
        self.bit.sd * self.bit.sd * v.dot(w) - self.bit.sn * self.bit.sn * d * e
    }

    fn ends(&self, p: Point) -> (Way, i64, Way, i64) {
        (self.from.from(p), -i64::from(self.from.h), self.to.from(p), -i64::from(self.to.h))
    }

    fn removes(&self, p: Point) -> bool {
        let (v, d, w, e) = self.ends(p);
        let (first, last) = (self.lean(v, d, v, d), self.lean(w, e, w, e));
        if first < 0 || last < 0 && e > 0 {
            return true;
        }
        let both = self.lean(v, d, w, e);
        both < 0 && product(first, last) < product(both, both) && product(both, d) < product(first, e)
    }

    // A point of the row of p that is removed, as far to the right of p as is told, or between that and the next.
    fn middle(&self, p: Point) -> Option<i64> {
        let (v, d, w, e) = self.ends(p);
        let meets = |way: Way, depth: i64| self.bit.sd * way.y.abs() < self.bit.sn * depth;
        let crosses = |v: Way, d: i64, w: Way, e: i64| v.y < 0 && w.y > 0 && v.y * e < w.y * d;
        let crossing = |v: Way, w: Way| v.cross(w).div_euclid(10 * (w.y - v.y));
        if meets(v, d) {
            Some(v.x.div_euclid(10))
        } else if meets(w, e) {
            Some(w.x.div_euclid(10))
        } else if crosses(v, d, w, e) {
            Some(crossing(v, w))
        } else if crosses(w, e, v, d) {
            Some(crossing(w, v))
        } else {
            None
        }
    }

    // The first and the last x from x0 to x1 at which a point of the row is removed.
    fn row(&self, y: i32, x0: i32, x1: i32) -> Option<(i32, i32)> {
        let at = |i: i32| Point { x: x0 + i, y };
        let middle = self.middle(at(0))?;
        let (mut low, mut high) = (0, x1 - x0);
        while low < high {
            let half = low + (high - low) / 2;
            if middle < i64::from(half) || self.removes(at(half)) { high = half } else { low = half + 1 }
        }
        if !self.removes(at(low)) {
            return None;
        }
        let first = low;
        high = x1 - x0;
        while low < high {
            let half = high - (high - low) / 2;
            if self.removes(at(half)) { low = half } else { high = half - 1 }
        }
        Some((x0 + first, x0 + low))
    }

    // The first and the last row that it may reach.
    fn band(&self) -> (i32, i32) {
        let reach = |spot: Spot| ((self.bit.sn * spot.depth() + self.bit.sd - 1) / self.bit.sd) as i32;
        let (from, to) = (self.from, self.to);
        let low = (from.y - reach(from)).min(to.y - reach(to));
        let high = (from.y + reach(from)).max(to.y + reach(to));
        (low.div_euclid(10), high.div_euclid(10) + 1)
    }
}

fn set(bits: &mut [u64], range: Range<usize>) {
    for i in range.start / 64..range.end.div_ceil(64) {
        let from = range.start.saturating_sub(64 * i).min(64) as u32;
        let end = (range.end - 64 * i).min(64) as u32;
        bits[i] |= (u64::MAX >> (64 - (end - from))) << from;
    }
}

// The bits of all points that some move removes, row by row.
fn cuts(lattice: &Lattice, moves: &[Move], bit: &Bit) -> Vec<u64> {
    let words = lattice.words();
    let mut bits = vec![0; words * lattice.rows];
    for cut in moves.iter().filter_map(|mv| Cut::of(mv, bit)) {
        let (low, high) = cut.band();
        for row in lattice.numbers(lattice.y, lattice.rows, low, high) {
            if let Some((first, last)) = cut.row(lattice.point(row, 0).y, lattice.x, lattice.last()) {
                let columns = lattice.numbers(lattice.x, lattice.columns, first, last);
                if !columns.is_empty() {
                    set(&mut bits[words * row..words * (row + 1)], columns);
                }
            }
        }
    }
    bits
}

// The columns to the left of where the edge crosses the row, and whether it crosses it in a column.
fn crossing(lattice: &Lattice, edge: Edge, y: i32) -> (usize, bool) {
    let along = edge.along();
    let (over, x) = (along.y.abs(), along.x * i64::from(y - edge.a.y) * along.y.signum());
    let from_first = x + over * i64::from(edge.a.x - lattice.x);
    let step = over * i64::from(lattice.pitch);
    let left = (from_first + step - 1).div_euclid(step).clamp(0, lattice.columns as i64);
    (left as usize, from_first.rem_euclid(step) == 0 && from_first >= 0 && left < lattice.columns as i64)
}

// The bits of the points of a row that are inside.
fn inside(scene: &Scene, lattice: &Lattice, y: i32, bits: &mut [u64]) {
    bits.fill(0);
    let mut outline = vec![0; bits.len()];
    scene.on_row(y, |edge| {
        let (low, high) = (edge.rect().low, edge.rect().high);
        if y < low.y || y > high.y {
            return;
        }
        if low.y == high.y {
            let columns = lattice.numbers(lattice.x, lattice.columns, low.x, high.x);
            if !columns.is_empty() {
                set(&mut outline, columns);
            }
            return;
        }
        let (left, is_on) = crossing(lattice, edge, y);
        if is_on {
            outline[left / 64] |= 1 << (left % 64);
        }
        if y < high.y {
            bits[..left / 64].iter_mut().for_each(|word| *word = !*word);
            if left % 64 > 0 {
                bits[left / 64] ^= u64::MAX >> (64 - left % 64);
            }
        }
    });
    bits.iter_mut().zip(&outline).for_each(|(word, on)| *word &= !on);
}

fn count(bits: &[u64]) -> i64 {
    bits.iter().map(|word| i64::from(word.count_ones())).sum()
}

fn push_runs(lattice: &Lattice, row: usize, bits: &[u64], text: &mut Text) {
    let is_set = |i: usize| i < lattice.columns && bits[i / 64] >> (i % 64) & 1 == 1;
    let mut open = None;
    for i in 0..=lattice.columns {
        match open {
            None if is_set(i) => open = Some(i),
            Some(first) if !is_set(i) => {
                let (first, last) = (lattice.point(row, first), lattice.point(row, i - 1));
                text.word("uncut y ").number(first.y.into(), " x ").number(first.x.into(), " to ").number(last.x.into(), "\n");
                open = None;
            }
            _ => {}
        }
    }
}

// The report, by intervals of rows or, the obvious way, point by point.
pub fn report(scene: &Scene, moves: &[Move], bit: &Bit, pitch: i32, by_intervals: bool) -> Text {
    let lattice = Lattice::of(&scene.edges, pitch);
    let (words, mut text, mut drawing, mut left) = (lattice.words(), Text(Vec::new()), 0, 0);
    let cut_bits = if by_intervals { cuts(&lattice, moves, bit) } else { Vec::new() };
    let mut bits = vec![0; words];
    for row in 0..lattice.rows {
        inside(scene, &lattice, lattice.point(row, 0).y, &mut bits);
        drawing += count(&bits);
        if by_intervals {
            bits.iter_mut().zip(&cut_bits[words * row..]).for_each(|(word, cut)| *word &= !cut);
        } else {
            for i in (0..lattice.columns).filter(|i| bits[i / 64] >> (i % 64) & 1 == 1).collect::<Vec<_>>() {
                let p = lattice.point(row, i);
                if moves.iter().any(|mv| Cut::of(mv, bit).is_some_and(|cut| cut.removes(p))) {
                    bits[i / 64] &= !(1 << (i % 64));
                }
            }
        }
        left += count(&bits);
        push_runs(&lattice, row, &bits, &mut text);
    }
    text.word("uncut ").number(left, " of ").number(drawing, "\n");
    text
}
