// Edges by place, for the yardstick: a uniform grid of cells in flat arrays, and bands of rows.
use crate::{Edge, Rect};
use std::ops::Range;

// Lists of numbers, one behind the other.
struct Lists {
    ends: Vec<u32>,
    numbers: Vec<u32>,
}

impl Lists {
    // So many lists; `places` gives the lists in which a number stands.
    fn build<R: IntoIterator<Item = usize>>(count: usize, most: usize, places: impl Fn(usize) -> R) -> Lists {
        let mut ends = vec![0; count + 1];
        (0..most).flat_map(&places).for_each(|list| ends[list + 1] += 1);
        for list in 0..count {
            ends[list + 1] += ends[list];
        }
        let (mut next, mut numbers) = (ends.clone(), vec![0; ends[count] as usize]);
        for number in 0..most {
            for list in places(number) {
                numbers[next[list] as usize] = number as u32;
                next[list] += 1;
            }
        }
        Lists { ends, numbers }
    }

    // The numbers of successive lists.
    fn of(&self, lists: Range<usize>) -> &[u32] {
        &self.numbers[self.ends[lists.start] as usize..self.ends[lists.end] as usize]
    }
}

// Each edge in all cells that its box meets. A row's cells stand one behind the other, and so do their edges.
pub struct Grid {
    bounds: Rect,
    shift: u32,
    columns: usize,
    cells: Lists,
    boxes: Vec<Rect>,
    seen: Vec<u32>,
    asks: u32,
}

fn cells_along(low: i32, from: i32, to: i32, shift: u32) -> Range<usize> {
    ((from - low) >> shift) as usize..((to - low) >> shift) as usize + 1
}

impl Grid {
    // The cells are as small as makes no more of them than twice the edges, and no edge stand in more than four of them in the mean.
    pub fn build(edges: &[Edge]) -> Grid {
        let boxes: Vec<Rect> = edges.iter().map(|edge| edge.rect()).collect();
        let bounds = boxes.iter().copied().reduce(Rect::joined).unwrap_or(Rect::around(0, 0, 0));
        let spans = |rect: Rect, shift| {
            let across = cells_along(bounds.low.x, rect.low.x, rect.high.x, shift);
            (across, cells_along(bounds.low.y, rect.low.y, rect.high.y, shift))
        };
        let count = |rect, shift| {
            let (across, up) = spans(rect, shift);
            across.len() * up.len()
        };
        let fits = |shift| {
            count(bounds, shift) <= 2 * boxes.len().max(1)
                && boxes.iter().map(|rect| count(*rect, shift)).sum::<usize>() <= 4 * boxes.len()
        };
        let shift = (0..17).find(|shift| fits(*shift)).unwrap_or(17);
        let columns = spans(bounds, shift).0.len();
        let places = |number: usize| {
            let (across, up) = spans(boxes[number], shift);
            up.flat_map(move |row| across.clone().map(move |column| row * columns + column))
        };
        let cells = Lists::build(count(bounds, shift), boxes.len(), places);
        Grid { bounds, shift, columns, cells, seen: vec![0; boxes.len()], boxes, asks: 0 }
    }

    pub fn near(&mut self, q: Rect, mut visit: impl FnMut(u32)) {
        if !q.meets(self.bounds) {
            return;
        }
        self.asks += 1;
        let (low, high) = (self.bounds.low, self.bounds.high);
        let across = cells_along(low.x, q.low.x.max(low.x), q.high.x.min(high.x), self.shift);
        for row in cells_along(low.y, q.low.y.max(low.y), q.high.y.min(high.y), self.shift) {
            let first = row * self.columns;
            for &number in self.cells.of(first + across.start..first + across.end) {
                let seen = &mut self.seen[number as usize];
                if *seen != self.asks && self.boxes[number as usize].meets(q) {
                    *seen = self.asks;
                    visit(number);
                }
            }
        }
    }
}

// Bands of rows, each with the edges that reach it.
pub struct Bands {
    low: i32,
    high: i32,
    shift: u32,
    bands: Lists,
}

impl Bands {
    // The bands are as low as makes no more of them than twice the edges, and no edge stand in more than eight of them in the mean.
    pub fn build(edges: &[Edge]) -> Bands {
        let low = edges.iter().map(|edge| edge.rect().low.y).min().unwrap_or(0);
        let high = edges.iter().map(|edge| edge.rect().high.y).max().unwrap_or(0);
        let bands_of = |edge: &Edge, shift| cells_along(low, edge.rect().low.y, edge.rect().high.y, shift);
        let fits = |shift| {
            cells_along(low, low, high, shift).len() <= 2 * edges.len().max(1)
                && edges.iter().map(|edge| bands_of(edge, shift).len()).sum::<usize>() <= 8 * edges.len()
        };
        let shift = (0..17).find(|shift| fits(*shift)).unwrap_or(17);
        let count = cells_along(low, low, high, shift).len();
        let bands = Lists::build(count, edges.len(), |number| bands_of(&edges[number], shift));
        Bands { low, high, shift, bands }
    }

    pub fn of_row(&self, row: i32) -> &[u32] {
        if row < self.low || row > self.high {
            return &[];
        }
        self.bands.of(cells_along(self.low, row, row, self.shift))
    }
}
