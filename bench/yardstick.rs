// The yardstick of the benchmark: the work of each command as plain Rust, without any proof, with the same answers.
// usage: yardstick METHOD probe DRAWING X,Y SN/SD RMAX
//        yardstick METHOD check DRAWING CODE SN/SD RMAX
//        yardstick METHOD contacts DRAWING STEP RMAX
//        yardstick METHOD cover DRAWING CODE SN/SD PITCH
//        yardstick METHOD moves CODE
//        yardstick METHOD flatten dxf|pbm DRAWING
//        yardstick near check DRAWING CODE SN/SD RMAX   how many tests of a move against an edge are due
// METHOD is `grid`: edges are found by a uniform grid of cells, and what is inside by bands of rows; `all`: each question walks
// all edges, each of them first by its box, and each point of a report all moves; or, for `contacts`, `double`: as `grid`, in double precision, with answers that may be off.
// But for `all`, it looks first whether edges of the drawing cross, as the program does.
// It takes the files that make_inputs.py makes, at 100 grid units a millimetre, and judges no fault of a text.
mod cells;
mod coverage;
mod outlines;

use cells::{Bands, Grid};
use std::fs::read;
use std::io::{Write, stdout};

#[derive(Clone, Copy)]
struct Point {
    x: i32,
    y: i32,
}

#[derive(Clone, Copy)]
struct Edge {
    a: Point,
    b: Point,
}

#[derive(Clone, Copy)]
struct Rect {
    low: Point,
    high: Point,
}

struct Bit {
    sn: i64,
    sd: i64,
    rmax: i64,
}

// Where the tip is, in tenths of a grid unit.
#[derive(Clone, Copy)]
struct Spot {
    x: i32,
    y: i32,
    h: i32,
}

struct Move {
    line: usize,
    from: Spot,
    to: Spot,
}

// A difference of two places.
#[derive(Clone, Copy)]
struct Way {
    x: i64,
    y: i64,
}

impl Way {
    fn cross(self, other: Way) -> i64 {
        self.x * other.y - self.y * other.x
    }

    fn dot(self, other: Way) -> i64 {
        self.x * other.x + self.y * other.y
    }
}

fn product(a: i64, b: i64) -> i128 {
    i128::from(a) * i128::from(b)
}

fn way(from: Point, to: Point) -> Way {
    Way { x: i64::from(to.x) - i64::from(from.x), y: i64::from(to.y) - i64::from(from.y) }
}

impl Edge {
    fn along(self) -> Way {
        way(self.a, self.b)
    }

    fn rect(self) -> Rect {
        let (a, b) = (self.a, self.b);
        Rect { low: Point { x: a.x.min(b.x), y: a.y.min(b.y) }, high: Point { x: a.x.max(b.x), y: a.y.max(b.y) } }
    }
}

impl Rect {
    fn around(x: i32, y: i32, radius: i32) -> Rect {
        Rect { low: Point { x: x - radius, y: y - radius }, high: Point { x: x + radius, y: y + radius } }
    }

    fn meets(self, other: Rect) -> bool {
        self.low.x <= other.high.x
            && other.low.x <= self.high.x
            && self.low.y <= other.high.y
            && other.low.y <= self.high.y
    }

    fn joined(self, other: Rect) -> Rect {
        let low = Point { x: self.low.x.min(other.low.x), y: self.low.y.min(other.low.y) };
        let high = Point { x: self.high.x.max(other.high.x), y: self.high.y.max(other.high.y) };
        Rect { low, high }
    }
}

struct Index {
    grid: Grid,
    bands: Bands,
}

struct Scene {
    edges: Vec<Edge>,
    // None where each question walks all edges.
    index: Option<Index>,
}

impl Scene {
    fn of(edges: Vec<Edge>, method: &str) -> Scene {
        let index = (method != "all").then(|| Index { grid: Grid::build(&edges), bands: Bands::build(&edges) });
        Scene { edges, index }
    }

    // As `of`, of a drawing whose edges don't cross, which is looked at where there is a grid.
    fn guarded(edges: Vec<Edge>, method: &str) -> Scene {
        let mut scene = Scene::of(edges, method);
        assert!(scene.index.is_none() || scene.first_crossing().is_none(), "the drawing crosses itself");
        scene
    }

    // Visits the edges whose boxes meet q, each once, in any order.
    fn near(&mut self, q: Rect, mut visit: impl FnMut(u32, Edge)) {
        let edges = &self.edges;
        match &mut self.index {
            Some(index) => index.grid.near(q, |number| visit(number, edges[number as usize])),
            None => (0..).zip(edges).filter(|(_, edge)| edge.rect().meets(q)).for_each(|(e, edge)| visit(e, *edge)),
        }
    }

    // Visits the edges that may meet a row.
    fn on_row(&self, row: i32, visit: impl FnMut(Edge)) {
        match &self.index {
            Some(index) => index.bands.of_row(row).iter().map(|&number| self.edges[number as usize]).for_each(visit),
            None => self.edges.iter().copied().for_each(visit),
        }
    }

    // Whether an odd number of edges is met to the right of a point on the row or less than 1 above it, and none at it.
    fn is_odd(&self, row: i32, met: impl Fn(Edge) -> Met) -> bool {
        match &self.index {
            Some(index) => is_odd(index.bands.of_row(row).iter().map(|&number| self.edges[number as usize]), met),
            None => is_odd(self.edges.iter().copied(), met),
        }
    }

    // Whether the point (x / over, y / over) is inside.
    fn inside(&self, x: i64, y: i64, over: i64) -> bool {
        self.is_odd(y.div_euclid(over) as i32, |edge| met_at(edge, x, y, over))
    }

    // What is asked first, so that an answer below `most` is found by near edges.
    fn first_asked(&self, few: u32, most: u32) -> u32 {
        if self.index.is_some() { few.min(most) } else { most }
    }
}

// Where the row of a point meets an edge.
enum Met {
    Nowhere,
    AtPoint,
    RightOfPoint,
}

fn is_odd(edges: impl Iterator<Item = Edge>, met: impl Fn(Edge) -> Met) -> bool {
    let mut odd = false;
    for edge in edges {
        match met(edge) {
            Met::Nowhere => {}
            Met::AtPoint => return false,
            Met::RightOfPoint => odd = !odd,
        }
    }
    odd
}

fn met_at(edge: Edge, x: i64, y: i64, over: i64) -> Met {
    let from = |p: Point| Way { x: x - over * i64::from(p.x), y: y - over * i64::from(p.y) };
    let (from_a, from_b) = (from(edge.a), from(edge.b));
    let (a_below, b_below) = (from_a.y >= 0, from_b.y >= 0);
    if a_below == b_below && from_a.y != 0 && from_b.y != 0 {
        return Met::Nowhere;
    }
    let side = edge.along().cross(from_a);
    if side == 0 && from_a.x.signum() * from_b.x.signum() <= 0 && from_a.y.signum() * from_b.y.signum() <= 0 {
        Met::AtPoint
    } else if a_below != b_below && (side > 0) == a_below {
        Met::RightOfPoint
    } else {
        Met::Nowhere
    }
}

// The greatest number up to `most` that is free; 0 is, and what is below a free one.
fn greatest_free(most: u32, free: impl Fn(u32) -> bool) -> u32 {
    if free(most) {
        return most;
    }
    let (mut low, mut high) = (0, most - 1);
    while low < high {
        let middle = high - (high - low) / 2;
        if free(middle) {
            low = middle;
        } else {
            high = middle - 1;
        }
    }
    low
}

// Whether the disc of the depth about the point holds no point of the edge.
fn is_depth_clear(p: Point, depth: u32, bit: &Bit, edge: Edge) -> bool {
    let reach = bit.sn * i64::from(depth);
    let is_long = |square: i64| product(reach, reach) <= product(square, bit.sd * bit.sd);
    let (along, from_a, from_b) = (edge.along(), way(edge.a, p), way(edge.b, p));
    if along.dot(from_a) <= 0 {
        is_long(from_a.dot(from_a))
    } else if along.dot(from_b) >= 0 {
        is_long(from_b.dot(from_b))
    } else {
        let height = product(along.cross(from_a), bit.sd);
        product(reach, reach) * i128::from(along.dot(along)) <= height * height
    }
}

fn greatest_depth(scene: &mut Scene, p: Point, bit: &Bit) -> u32 {
    if !scene.inside(i64::from(p.x), i64::from(p.y), 1) {
        return 0;
    }
    let most = 32_767.min(bit.sd * bit.rmax / bit.sn) as u32;
    let mut asked = scene.first_asked((32 * bit.sd / bit.sn).max(1) as u32, most);
    loop {
        let mut depth = asked;
        let radius = (bit.sn * i64::from(asked)).div_euclid(bit.sd) as i32 + 1;
        scene.near(Rect::around(p.x, p.y, radius), |_, edge| {
            depth = greatest_free(depth, |depth| is_depth_clear(p, depth, bit, edge));
        });
        if depth < asked || asked == most {
            return depth;
        }
        asked = most.min(2 * asked);
    }
}

impl Spot {
    fn depth(self) -> i64 {
        i64::from((-self.h).max(0))
    }

    fn from(self, p: Point) -> Way {
        Way { x: i64::from(self.x) - 10 * i64::from(p.x), y: i64::from(self.y) - 10 * i64::from(p.y) }
    }
}

// A move with what all its tests need: its moments below the surface are from first / over to last / over.
struct DeepMove<'a> {
    mv: &'a Move,
    bit: &'a Bit,
    path: Way,
    first: i64,
    last: i64,
    over: i64,
}

impl DeepMove<'_> {
    fn of<'a>(mv: &'a Move, bit: &'a Bit) -> DeepMove<'a> {
        let path = Way { x: i64::from(mv.to.x - mv.from.x), y: i64::from(mv.to.y - mv.from.y) };
        let (h, k) = (i64::from(mv.from.h), i64::from(mv.to.h));
        let (first, last, over) = match (h > 0, k > 0) {
            (true, _) => (h, h - k, h - k),
            (false, true) => (0, -h, k - h),
            (false, false) => (0, 1, 1),
        };
        DeepMove { mv, bit, path, first, last, over }
    }

    // A box that holds all discs of the move, in grid units.
    fn rect(&self) -> Rect {
        let deepest = self.mv.from.depth().max(self.mv.to.depth());
        let reach = (self.bit.sn * deepest + self.bit.sd - 1).div_euclid(self.bit.sd) as i32;
        let low = |a: i32, b: i32| (a.min(b) - reach).div_euclid(10);
        let high = |a: i32, b: i32| (a.max(b) + reach + 9).div_euclid(10);
        let (p, q) = (self.mv.from, self.mv.to);
        let (low, high) = (Point { x: low(p.x, q.x), y: low(p.y, q.y) }, Point { x: high(p.x, q.x), y: high(p.y, q.y) });
        Rect { low, high }
    }

    fn passes(&self, edge: Edge) -> bool {
        !self.crosses(edge)
            && self.is_corner_off(edge.a)
            && self.is_corner_off(edge.b)
            && self.is_disc_off(self.mv.from, edge)
            && self.is_disc_off(self.mv.to, edge)
    }

    fn crosses(&self, edge: Edge) -> bool {
        let (from_a, from_b) = (self.mv.from.from(edge.a), self.mv.from.from(edge.b));
        let along = edge.along();
        let (base, turn) = (along.cross(from_a), along.cross(self.path));
        let side = |moment: i64| (self.over * base + moment * turn).signum();
        self.path.cross(from_a).signum() * self.path.cross(from_b).signum() < 0 && side(self.first) * side(self.last) < 0
    }

    // Whether no disc holds the corner: a quadratic in the moment that isn't negative in the part below the surface.
    fn is_corner_off(&self, corner: Point) -> bool {
        let (sd2, sn2) = (self.bit.sd * self.bit.sd, self.bit.sn * self.bit.sn);
        let from = self.mv.from.from(corner);
        let (depth, sinks) = (-i64::from(self.mv.from.h), i64::from(self.mv.from.h - self.mv.to.h));
        let a = sd2 * self.path.dot(self.path) - sn2 * sinks * sinks;
        let half = sd2 * from.dot(self.path) - sn2 * depth * sinks;
        let c = sd2 * from.dot(from) - sn2 * depth * depth;
        let slope = |moment: i64| product(self.over, half) + product(moment, a);
        (self.first != 0 || c >= 0)
            && (self.last != self.over || i128::from(a) + 2 * i128::from(half) + i128::from(c) >= 0)
            && (a <= 0 || slope(self.first) >= 0 || slope(self.last) <= 0 || product(half, half) <= product(a, c))
    }

    fn is_disc_off(&self, spot: Spot, edge: Edge) -> bool {
        let (along, from_a, from_b) = (edge.along(), spot.from(edge.a), spot.from(edge.b));
        let (reach, sd) = (self.bit.sn * spot.depth(), self.bit.sd);
        let is_long = |square: i64| product(reach, reach) <= product(square, sd * sd);
        if along.dot(from_a) <= 0 {
            is_long(from_a.dot(from_a))
        } else if along.dot(from_b) >= 0 {
            is_long(from_b.dot(from_b))
        } else {
            let height = along.cross(from_a) * sd;
            product(reach * reach, along.dot(along)) <= product(height, height)
        }
    }
}

// What is wrong with the move, if anything.
fn fault(scene: &mut Scene, mv: &Move, bit: &Bit) -> Option<String> {
    let deepest = mv.from.depth().max(mv.to.depth());
    if deepest == 0 {
        return None;
    }
    if bit.sn * deepest > 10 * bit.sd * bit.rmax {
        return Some(format!("line {} too deep", mv.line));
    }
    let (deep, mut least) = (DeepMove::of(mv, bit), u32::MAX);
    scene.near(deep.rect(), |number, edge| {
        if number < least && !deep.passes(edge) {
            least = number;
        }
    });
    if least < u32::MAX {
        return Some(format!("line {} gouge edge {least}", mv.line));
    }
    let first_deep = if mv.from.h < 0 { mv.from } else { mv.to };
    let inside = scene.inside(i64::from(first_deep.x), i64::from(first_deep.y), 10);
    (!inside).then(|| format!("line {} outside", mv.line))
}

fn verdict(scene: &mut Scene, moves: &[Move], bit: &Bit) -> String {
    let fault = moves.iter().find_map(|mv| fault(scene, mv, bit));
    fault.unwrap_or_else(|| format!("clear {} moves", moves.len()))
}

// How many pairs of a move and an edge are such that the boxes meet.
fn near_pairs(scene: &mut Scene, moves: &[Move], bit: &Bit) -> usize {
    let mut count = 0;
    for mv in moves.iter().filter(|mv| mv.from.h.min(mv.to.h) < 0) {
        scene.near(DeepMove::of(mv, bit).rect(), |_, _| count += 1);
    }
    count
}

// An edge cut into pieces, with its length rounded up.
#[derive(Clone, Copy)]
struct Pieces {
    edge: Edge,
    count: i64,
    length: i64,
}

impl Pieces {
    fn of(edge: Edge, step: i64) -> Pieces {
        let square = edge.along().dot(edge.along());
        let length = square.isqrt() + i64::from(square.isqrt().pow(2) < square);
        Pieces { edge, count: ((length + step - 1) / step).max(1), length }
    }
}

// The discs that touch an edge at a contact on one side. The centre of the disc j is (start + j step) / over.
struct Touch {
    start: Way,
    step: Way,
    over: i64,
    size: i64,
}

impl Touch {
    // On the left side for a turn of 1, on the right for -1, on none for 0.
    fn of(Pieces { edge, count, length }: Pieces, k: i64, turn: i64) -> Touch {
        let along = edge.along();
        let start = |from: i32, along: i64| length * (count * i64::from(from) + k * along);
        let start = Way { x: start(edge.a.x, along.x), y: start(edge.a.y, along.y) };
        let step = Way { x: -turn * count * along.y, y: turn * count * along.x };
        Touch { start, step, over: count * length, size: step.dot(step) }
    }

    fn centre(&self, j: u32) -> Way {
        Way { x: self.start.x + i64::from(j) * self.step.x, y: self.start.y + i64::from(j) * self.step.y }
    }

    // Whether no point of the edge is in the disc j.
    fn is_free(&self, j: u32, edge: Edge) -> bool {
        let (centre, along) = (self.centre(j), edge.along());
        let reach = i128::from(self.size) * i128::from(j) * i128::from(j);
        let from = |p: Point| Way { x: centre.x - self.over * i64::from(p.x), y: centre.y - self.over * i64::from(p.y) };
        let is_far = |way: Way| reach <= product(way.x, way.x) + product(way.y, way.y);
        let (from_a, from_b) = (from(edge.a), from(edge.b));
        if from_a.dot(along) <= 0 {
            is_far(from_a)
        } else if from_b.dot(along) >= 0 {
            is_far(from_b)
        } else {
            let height = from_a.cross(along);
            reach * i128::from(along.dot(along)) <= product(height, height)
        }
    }

    fn in_double(&self) -> DoubleTouch {
        let quotient = |z: i64| z as f64 / self.over as f64;
        let (step_x, step_y) = (quotient(self.step.x), quotient(self.step.y));
        DoubleTouch { x: quotient(self.start.x), y: quotient(self.start.y), step_x, step_y, length: step_x.hypot(step_y) }
    }

    // Whether the centre of the disc j is inside.
    fn is_inside(&self, scene: &Scene, j: u32, exact: bool) -> bool {
        let centre = self.centre(j);
        if exact { scene.inside(centre.x, centre.y, self.over) } else { self.in_double().is_inside(scene, j) }
    }

    fn greatest(&self, scene: &mut Scene, rmax: u32, exact: bool) -> u32 {
        let (double, mut asked) = (self.in_double(), scene.first_asked(32, rmax));
        loop {
            let (centre, mut j) = (self.centre(asked), asked);
            let (x, y) = (centre.x.div_euclid(self.over) as i32, centre.y.div_euclid(self.over) as i32);
            scene.near(Rect::around(x, y, asked as i32 + 1), |_, edge| {
                j = if exact {
                    greatest_free(j, |j| self.is_free(j, edge))
                } else {
                    greatest_free(j, |j| double.is_free(j, edge))
                };
            });
            if j < asked || asked == rmax {
                return j;
            }
            asked = rmax.min(2 * asked);
        }
    }
}

// The same discs in double precision.
struct DoubleTouch {
    x: f64,
    y: f64,
    step_x: f64,
    step_y: f64,
    length: f64,
}

impl DoubleTouch {
    fn centre(&self, j: u32) -> (f64, f64) {
        (self.x + f64::from(j) * self.step_x, self.y + f64::from(j) * self.step_y)
    }

    // A touch within a millionth of a grid unit isn't seen.
    fn is_free(&self, j: u32, Edge { a, b }: Edge) -> bool {
        let (x, y) = self.centre(j);
        let reach = (f64::from(j) * self.length - 1e-6).max(0.0);
        let (dx, dy) = (f64::from(b.x) - f64::from(a.x), f64::from(b.y) - f64::from(a.y));
        let (ax, ay, bx, by) = (x - f64::from(a.x), y - f64::from(a.y), x - f64::from(b.x), y - f64::from(b.y));
        if ax * dx + ay * dy <= 0.0 {
            reach * reach <= ax * ax + ay * ay
        } else if bx * dx + by * dy >= 0.0 {
            reach * reach <= bx * bx + by * by
        } else {
            let height = ax * dy - ay * dx;
            reach * reach * (dx * dx + dy * dy) <= height * height
        }
    }

    fn is_inside(&self, scene: &Scene, j: u32) -> bool {
        let (x, y) = self.centre(j);
        scene.is_odd(y.floor() as i32, |Edge { a, b }| {
            let (ax, ay, bx, by) = (f64::from(a.x), f64::from(a.y), f64::from(b.x), f64::from(b.y));
            let right = (ay <= y) != (by <= y) && x < ax + (y - ay) * (bx - ax) / (by - ay);
            if right { Met::RightOfPoint } else { Met::Nowhere }
        })
    }
}

// The side, the number of the greatest disc and its centre, as text.
fn push_disc(scene: &mut Scene, pieces: Pieces, k: i64, rmax: u32, exact: bool, text: &mut Text) {
    for (side, turn) in [("left ", 1), ("right ", -1), ("none ", 0)] {
        let touch = Touch::of(pieces, k, turn);
        let j = if turn == 0 { 0 } else { touch.greatest(scene, rmax, exact) };
        if turn == 0 || j > 0 && touch.is_inside(scene, j, exact) {
            let (centre, over) = (touch.centre(j), touch.over);
            let nearest = |z: i64| (2 * z + over).div_euclid(2 * over);
            text.word(side).number(j.into(), " ").number(nearest(centre.x), ",").number(nearest(centre.y), "\n");
            return;
        }
    }
}

fn contacts(scene: &mut Scene, loops: &[usize], step: i64, rmax: u32, exact: bool) -> Text {
    let mut text = Text(Vec::new());
    for e in 0..loops.len() {
        let pieces = Pieces::of(scene.edges[e], step);
        for k in 0..=pieces.count {
            text.number(loops[e] as i64, " ").number(e as i64, " ").number(k, "/").number(pieces.count, " ");
            push_disc(scene, pieces, k, rmax, exact, &mut text);
        }
    }
    text
}

// A text that grows.
struct Text(Vec<u8>);

impl Text {
    fn word(&mut self, word: &str) -> &mut Text {
        self.0.extend_from_slice(word.as_bytes());
        self
    }

    // The number, and what follows it.
    fn number(&mut self, number: i64, end: &str) -> &mut Text {
        let (mut digits, mut start, mut rest) = ([0; 20], 20, number.unsigned_abs());
        loop {
            start -= 1;
            digits[start] = b'0' + (rest % 10) as u8;
            rest /= 10;
            if rest == 0 {
                break;
            }
        }
        if number < 0 {
            self.0.push(b'-');
        }
        self.0.extend_from_slice(&digits[start..]);
        self.word(end)
    }

    // A number of tenths, as grid units.
    fn tenths(&mut self, tenths: i32, end: &str) -> &mut Text {
        if tenths % 10 == 0 {
            return self.number(i64::from(tenths / 10), end);
        }
        let sign = if tenths < 0 { "-" } else { "" };
        self.word(sign).number(i64::from(tenths.abs() / 10), ".").number(i64::from(tenths.abs() % 10), end)
    }
}

fn list(moves: &[Move]) -> Text {
    let mut text = Text(Vec::new());
    for Move { line, from, to } in moves {
        text.number(*line as i64, " ").tenths(from.x, ",").tenths(from.y, ",").tenths(from.h, " ");
        text.tenths(to.x, ",").tenths(to.y, ",").tenths(to.h, "\n");
    }
    text.word("moves ").number(moves.len() as i64, "\n");
    text
}

fn read_point(word: &str) -> Point {
    let (x, y) = word.split_once(',').unwrap();
    Point { x: x.parse().unwrap(), y: y.parse().unwrap() }
}

// The edges, and the number of the loop of each.
fn read_drawing(name: &str) -> (Vec<Edge>, Vec<usize>) {
    let (mut edges, mut loops, mut count) = (Vec::new(), Vec::new(), 0);
    for line in String::from_utf8(read(name).unwrap()).unwrap().lines() {
        let points: Vec<Point> = line.split_ascii_whitespace().map(read_point).collect();
        edges.extend((0..points.len()).map(|i| Edge { a: points[i], b: points[(i + 1) % points.len()] }));
        loops.resize(edges.len(), count);
        count += usize::from(!points.is_empty());
    }
    (edges, loops)
}

// The thousandths of a millimetre, which are tenths of a grid unit; the number has at most three decimals.
fn thousandths(number: &[u8]) -> i32 {
    let (mut size, mut decimals) = (0, None);
    for byte in number {
        match byte {
            b'0'..=b'9' => {
                size = size * 10 + i32::from(byte - b'0');
                decimals = decimals.map(|count: u32| count + 1);
            }
            b'.' => decimals = Some(0),
            _ => {}
        }
    }
    size *= 10i32.pow(3 - decimals.unwrap_or(0));
    if number.first() == Some(&b'-') { -size } else { size }
}

fn read_code(name: &str) -> Vec<Move> {
    let (mut moves, mut known) = (Vec::new(), [None; 3]);
    for (i, line) in read(name).unwrap().split(|byte| *byte == b'\n').enumerate() {
        let before = known;
        let mut named = false;
        for word in line.split(|byte| *byte == b' ') {
            if let Some((letter @ b'X'..=b'Z', number)) = word.split_first() {
                known[usize::from(letter - b'X')] = Some(thousandths(number));
                named = true;
            }
        }
        if let (true, Some(from), Some(to)) = (named, spot(before), spot(known)) {
            moves.push(Move { line: i + 1, from, to });
        }
    }
    moves
}

fn spot(known: [Option<i32>; 3]) -> Option<Spot> {
    Some(Spot { x: known[0]?, y: known[1]?, h: known[2]? })
}

fn read_bit(slope: &str, rmax: &str) -> Bit {
    let (sn, sd) = slope.split_once('/').unwrap();
    Bit { sn: sn.parse().unwrap(), sd: sd.parse().unwrap(), rmax: rmax.parse().unwrap() }
}

fn answer(method: &str, words: &[&str]) -> Text {
    let line = |text: String| Text((text + "\n").into_bytes());
    match *words {
        ["probe", drawing, at, slope, rmax] => {
            let mut scene = Scene::guarded(read_drawing(drawing).0, method);
            line(format!("depth {}", greatest_depth(&mut scene, read_point(at), &read_bit(slope, rmax))))
        }
        ["check", drawing, code, slope, rmax] => {
            let (mut scene, moves) = (Scene::guarded(read_drawing(drawing).0, method), read_code(code));
            let bit = read_bit(slope, rmax);
            line(match method {
                "near" => near_pairs(&mut scene, &moves, &bit).to_string(),
                _ => verdict(&mut scene, &moves, &bit),
            })
        }
        ["cover", drawing, code, slope, pitch] => {
            let (scene, moves) = (Scene::guarded(read_drawing(drawing).0, method), read_code(code));
            coverage::report(&scene, &moves, &read_bit(slope, "0"), pitch.parse().unwrap(), method == "grid")
        }
        ["contacts", drawing, step, rmax] => {
            let (edges, loops) = read_drawing(drawing);
            let (step, rmax) = (step.parse().unwrap(), rmax.parse().unwrap());
            contacts(&mut Scene::guarded(edges, method), &loops, step, rmax, method != "double")
        }
        ["moves", code] => list(&read_code(code)),
        ["flatten", form, drawing] => outlines::flatten(form, drawing),
        _ => std::process::exit(2),
    }
}

fn main() {
    let words: Vec<String> = std::env::args().skip(1).collect();
    let words: Vec<&str> = words.iter().map(String::as_str).collect();
    match words.split_first() {
        Some((&method @ ("grid" | "all" | "double" | "near"), words)) => {
            stdout().write_all(&answer(method, words).0).unwrap();
        }
        _ => std::process::exit(2),
    }
}
