// Drawings of other forms as loops: the segments of a DXF file's LINEs, or of a packed bitmap, near points made one, joined, and guarded.
// Of DXF only LINEs with plain decimals are read, at 100 grid units a millimetre; a pixel is one grid unit.
use crate::{Edge, Point, Scene, Text, read, way};
use std::collections::HashMap;

impl Edge {
    fn is_at(self, x: i32, y: i32) -> bool {
        (self.a.x, self.a.y) == (x, y) || (self.b.x, self.b.y) == (x, y)
    }

    // Whether the edges, whose boxes meet, have more in common than an end of both.
    fn crosses(self, other: Edge) -> bool {
        let side = |e: Edge, p: Point| e.along().cross(way(e.a, p)).signum();
        let (a, b) = (side(self, other.a), side(self, other.b));
        let (c, d) = (side(other, self.a), side(other, self.b));
        if (a, b) == (0, 0) {
            return self.runs_along(other);
        }
        let shared = [other.a, other.b].iter().any(|p| self.is_at(p.x, p.y));
        a * b <= 0 && c * d <= 0 && !shared
    }

    // Whether edges on one line have more than a point in common.
    fn runs_along(self, other: Edge) -> bool {
        let (s, t) = (self.rect(), other.rect());
        let (low_x, high_x) = (s.low.x.max(t.low.x), s.high.x.min(t.high.x));
        let (low_y, high_y) = (s.low.y.max(t.low.y), s.high.y.min(t.high.y));
        low_x <= high_x && low_y <= high_y && (low_x < high_x || low_y < high_y)
    }
}

// The thousandths of a grid unit that a plain decimal of millimetres has, rounded to the grid.
fn units(text: &[u8]) -> i32 {
    let (mut size, mut places) = (0i64, None);
    for byte in text {
        match byte {
            b'0'..=b'9' if places.is_none_or(|count| count < 5) => {
                size = size * 10 + i64::from(byte - b'0');
                places = places.map(|count: u32| count + 1);
            }
            b'.' => places = Some(0),
            _ => {}
        }
    }
    let fine = size * 10i64.pow(5 - places.unwrap_or(0));
    let fine = if text.first() == Some(&b'-') { -fine } else { fine };
    (2 * fine + 1000).div_euclid(2000) as i32
}

fn lines_of(file: &[u8]) -> Vec<Edge> {
    let mut edges = Vec::new();
    let (mut ends, mut is_line) = ([0; 4], false);
    let mut finish = |ends: [i32; 4], is_line: bool| {
        let (a, b) = (Point { x: ends[0], y: ends[1] }, Point { x: ends[2], y: ends[3] });
        if is_line && (a.x, a.y) != (b.x, b.y) {
            edges.push(Edge { a, b });
        }
    };
    let mut texts = file.split(|byte| *byte == b'\n').map(<[u8]>::trim_ascii);
    while let (Some(code), Some(value)) = (texts.next(), texts.next()) {
        match code {
            b"0" => {
                finish(ends, is_line);
                is_line = value == b"LINE";
            }
            b"10" => ends[0] = units(value),
            b"20" => ends[1] = units(value),
            b"11" => ends[2] = units(value),
            b"21" => ends[3] = units(value),
            _ => {}
        }
    }
    edges
}

// Points that differ by at most one unit in each coordinate become one: the earliest. A cell of two by two holds one kept point at most.
fn snapped(edges: Vec<Edge>) -> Vec<Edge> {
    let (mut cells, mut kept): (HashMap<(i32, i32), usize>, Vec<Point>) = (HashMap::new(), Vec::new());
    let mut snap = |p: Point| {
        let (column, row) = (p.x.div_euclid(2), p.y.div_euclid(2));
        let near = (-1..=1).flat_map(|dx| (-1..=1).map(move |dy| (column + dx, row + dy)));
        let found = near.filter_map(|cell| cells.get(&cell)).filter(|number| {
            let q: Point = kept[**number];
            (p.x - q.x).abs() <= 1 && (p.y - q.y).abs() <= 1
        });
        if let Some(number) = found.min() {
            return kept[*number];
        }
        cells.insert((column, row), kept.len());
        kept.push(p);
        p
    };
    let moved = edges.into_iter().map(|Edge { a, b }| Edge { a: snap(a), b: snap(b) });
    moved.filter(|edge| (edge.a.x, edge.a.y) != (edge.b.x, edge.b.y)).collect()
}

// Loops: each begins with the first edge that is left, and goes on along the first one that is left where it is; or where one is open.
fn joined(edges: &[Edge]) -> Result<Vec<Vec<Point>>, Point> {
    let mut ends: HashMap<(i32, i32), Vec<u32>> = HashMap::with_capacity(edges.len());
    for (number, edge) in (0..).zip(edges) {
        ends.entry((edge.a.x, edge.a.y)).or_default().push(number);
        ends.entry((edge.b.x, edge.b.y)).or_default().push(number);
    }
    let odd = |p: &Point| ends[&(p.x, p.y)].len() % 2 == 1;
    if let Some(p) = edges.iter().flat_map(|edge| [edge.a, edge.b]).find(odd) {
        return Err(p);
    }
    let (mut loops, mut used) = (Vec::new(), vec![false; edges.len()]);
    for first in 0..edges.len() {
        if used[first] {
            continue;
        }
        used[first] = true;
        let (start, mut p) = (edges[first].a, edges[first].b);
        let mut points = vec![start];
        while (p.x, p.y) != (start.x, start.y) {
            points.push(p);
            let numbers = &ends[&(p.x, p.y)];
            let next = *numbers.iter().find(|number| !used[**number as usize]).unwrap() as usize;
            used[next] = true;
            p = if (edges[next].a.x, edges[next].a.y) == (p.x, p.y) { edges[next].b } else { edges[next].a };
        }
        loops.push(points);
    }
    Ok(loops)
}

// The edges of loops, one behind the other.
fn edges_of(loops: &[Vec<Point>]) -> Vec<Edge> {
    let around = |points: &Vec<Point>| {
        let points = points.clone();
        (0..points.len()).map(move |i| Edge { a: points[i], b: points[(i + 1) % points.len()] })
    };
    loops.iter().flat_map(around).collect()
}

impl Scene {
    // The first two edges that cross.
    pub fn first_crossing(&mut self) -> Option<(u32, u32)> {
        (0..self.edges.len()).find_map(|i| {
            let (edge, i, mut least) = (self.edges[i], i as u32, None);
            self.near(edge.rect(), |j, other| {
                if j > i && least.is_none_or(|least| j < least) && edge.crosses(other) {
                    least = Some(j);
                }
            });
            least.map(|j| (i, j))
        })
    }
}

// The sides between black and white, with the axis where black is above them or to their left.
fn boundary(file: &[u8]) -> Vec<Edge> {
    let mut words = file.splitn(4, |byte| byte.is_ascii_whitespace());
    let mut side = || words.next().map(|word| std::str::from_utf8(word).unwrap().parse().unwrap_or(0)).unwrap();
    let (_, width, height): (usize, usize, usize) = (side(), side(), side());
    let (bits, row) = (words.next().unwrap(), width.div_ceil(8));
    let black = |x: usize, y: usize| (1..=width).contains(&x) && (1..=height).contains(&y) && bits[(y - 1) * row + (x - 1) / 8] >> (7 - (x - 1) % 8) & 1 == 1;
    let mut edges = Vec::new();
    let mut push = |way: i32, p: (usize, usize), q: (usize, usize)| {
        let (a, b) = (Point { x: p.0 as i32, y: p.1 as i32 }, Point { x: q.0 as i32, y: q.1 as i32 });
        edges.push(if way > 0 { Edge { a, b } } else { Edge { a: b, b: a } });
    };
    let mut runs = |count: usize, side: &dyn Fn(usize) -> i32, place: &dyn Fn(usize) -> (usize, usize)| {
        let mut begun = 0;
        for i in 1..=count {
            let before = side(i - 1);
            if i == count || side(i) != before {
                if before != 0 {
                    push(before, place(begun), place(i));
                }
                begun = i;
            }
        }
    };
    for k in 0..=height {
        runs(width, &|i| i32::from(black(i + 1, k)) - i32::from(black(i + 1, k + 1)), &|i| (i, height - k));
    }
    for k in 0..=width {
        runs(height, &|i| i32::from(black(k, height - i)) - i32::from(black(k + 1, height - i)), &|i| (k, i));
    }
    edges
}

pub fn flatten(form: &str, name: &str) -> Text {
    let file = read(name).unwrap();
    let (edges, mut text) = match form {
        "dxf" => (snapped(lines_of(&file)), Text(b"# skipped 0\n".to_vec())),
        _ => (boundary(&file), Text(Vec::new())),
    };
    let loops = match joined(&edges) {
        Ok(loops) => loops,
        Err(p) => return Text(format!("input open {},{}\n", p.x, p.y).into_bytes()),
    };
    if let Some((i, j)) = Scene::of(edges_of(&loops), "grid").first_crossing() {
        return Text(format!("input cross {i},{j}\n").into_bytes());
    }
    for points in &loops {
        for (i, p) in points.iter().enumerate() {
            let end = if i + 1 == points.len() { "\n" } else { " " };
            text.number(p.x.into(), ",").number(p.y.into(), end);
        }
    }
    text
}
