//! Places boxes in rows so that most ways lead down, and long ways run between the boxes. Each way that
//! passes a row has a place of its own in it. Orders and columns are found by sweeps down and up.

/// A box to place: how wide and how high.
#[derive(Clone, Copy, Debug)]
pub struct Size {
    pub width: f64,
    pub height: f64,
}

/// From one box to another.
#[derive(Clone, Copy, Debug)]
pub struct Edge {
    pub from: usize,
    pub to: usize,
}

#[derive(Clone, Debug, Default)]
pub struct Layout {
    /// The upper left corner of each box.
    pub corners: Vec<(f64, f64)>,
    /// For each edge the points that it passes, from the lower side of a box to the upper side of
    /// another. Those that lead down are in turn a line and a way from row to row; those that lead back
    /// are lines and corners.
    pub paths: Vec<Vec<(f64, f64)>>,
    pub width: f64,
    pub height: f64,
}

const COLUMN_GAP: f64 = 28.0;
const ROW_GAP: f64 = 46.0;
/// Room for a way that passes a row.
const LANE: f64 = 14.0;
const SWEEPS: usize = 24;

/// A box, or the place of an edge in a row that it passes.
#[derive(Clone, Copy)]
struct Spot {
    width: f64,
    row: usize,
    /// None for the place of an edge.
    of: Option<usize>,
}

struct Grid {
    spots: Vec<Spot>,
    /// Of each spot, those that it is linked with in the row above, with how much they want to stand
    /// above each other; and those in the row below.
    above: Vec<Vec<(usize, f64)>>,
    below: Vec<Vec<(usize, f64)>>,
    /// Spots of each edge, from above.
    chains: Vec<Vec<usize>>,
    rows: Vec<Vec<usize>>,
    centre: Vec<f64>,
}

/// How many pairs stand in the wrong order; the list is sorted.
fn inversions(list: &mut [usize]) -> usize {
    if list.len() < 2 {
        return 0;
    }
    let (left, right) = list.split_at_mut(list.len() / 2);
    let mut count = inversions(left) + inversions(right);
    let mut at = 0;
    for &item in right.iter() {
        at += left[at..].iter().take_while(|&&other| other <= item).count();
        count += left.len() - at;
    }
    list.sort_unstable();
    count
}

/// The row of each box: below all that lead to it. Boxes come in an order in which edges lead forward.
fn rows(count: usize, edges: &[Edge]) -> Vec<usize> {
    let mut rows = vec![0; count];
    let mut ordered: Vec<&Edge> = edges.iter().collect();
    ordered.sort_by_key(|edge| edge.from);
    for edge in ordered {
        rows[edge.to] = rows[edge.to].max(rows[edge.from] + 1);
    }
    rows
}

impl Grid {
    fn new(sizes: &[Size], edges: &[Edge]) -> Grid {
        let boxes = rows(sizes.len(), edges);
        let last = boxes.iter().copied().max().unwrap_or(0);
        let mut grid = Grid {
            spots: Vec::new(),
            above: Vec::new(),
            below: Vec::new(),
            chains: Vec::new(),
            rows: vec![Vec::new(); last + 1],
            centre: Vec::new(),
        };
        for (at, size) in sizes.iter().enumerate() {
            grid.put(Spot { width: size.width, row: boxes[at], of: Some(at) });
        }
        edges.iter().for_each(|edge| grid.lay(edge));
        grid.centre = vec![0.0; grid.spots.len()];
        grid.first_order(sizes.len());
        grid
    }

    /// Gives an edge its places in the rows that it passes.
    fn lay(&mut self, edge: &Edge) {
        let passed = self.spots[edge.from].row + 1..self.spots[edge.to].row;
        let lanes: Vec<usize> = passed.map(|row| self.put(Spot { width: LANE, row, of: None })).collect();
        let chain: Vec<usize> = [edge.from].into_iter().chain(lanes).chain([edge.to]).collect();
        for pair in chain.windows(2) {
            let passing = pair.iter().filter(|&&spot| self.spots[spot].of.is_none()).count();
            let weight = [1.0, 2.0, 8.0][passing];
            self.below[pair[0]].push((pair[1], weight));
            self.above[pair[1]].push((pair[0], weight));
        }
        self.chains.push(chain);
    }

    /// Rows in the order in which a walk along the edges, as they are given, first comes to their spots.
    fn first_order(&mut self, boxes: usize) {
        let mut met = vec![usize::MAX; self.spots.len()];
        let mut count = 0;
        for root in 0..boxes {
            let mut open = vec![root];
            while let Some(at) = open.pop() {
                if met[at] != usize::MAX {
                    continue;
                }
                met[at] = count;
                count += 1;
                open.extend(self.below[at].iter().rev().map(|&(other, _)| other));
            }
        }
        self.rows.iter_mut().for_each(|row| row.sort_by_key(|&spot| met[spot]));
    }

    fn put(&mut self, spot: Spot) -> usize {
        self.rows[spot.row].push(self.spots.len());
        self.spots.push(spot);
        self.above.push(Vec::new());
        self.below.push(Vec::new());
        self.spots.len() - 1
    }

    /// Spots that a spot is linked with in the row above, where the sweep goes down, or below.
    fn linked(&self, spot: usize, down: bool) -> &[(usize, f64)] {
        if down {
            &self.above[spot]
        } else {
            &self.below[spot]
        }
    }

    /// A large picture gets fewer.
    fn sweeps(&self) -> usize {
        (SWEEPS * 2_000 / self.spots.len().max(2_000)).max(2)
    }

    /// How many links cross between the rows.
    fn crossings(&self) -> usize {
        let mut place = vec![0; self.spots.len()];
        self.rows.iter().for_each(|row| row.iter().enumerate().for_each(|(at, &spot)| place[spot] = at));
        let mut sum = 0;
        for row in &self.rows {
            // From left to right above; those that go down to the left of an earlier one cross it.
            let mut ends: Vec<usize> = Vec::new();
            for &spot in row {
                let mut own: Vec<usize> = self.below[spot].iter().map(|&(other, _)| place[other]).collect();
                own.sort_unstable();
                ends.extend(own);
            }
            sum += inversions(&mut ends);
        }
        sum
    }

    /// Orders each row by the middle of what its spots are linked with; the best of all sweeps is kept.
    fn order(&mut self) {
        let mut best = (self.crossings(), self.rows.clone());
        for sweep in 0..self.sweeps() {
            if best.0 == 0 {
                break;
            }
            self.sweep(sweep % 2 == 0);
            let found = self.crossings();
            if found < best.0 {
                best = (found, self.rows.clone());
            }
        }
        self.rows = best.1;
    }

    fn sweep(&mut self, down: bool) {
        let mut place = vec![0.0; self.spots.len()];
        let mut put = |row: &[usize]| row.iter().enumerate().for_each(|(at, &spot)| place[spot] = at as f64);
        self.rows.iter().for_each(|row| put(row));
        for row in self.in_turn(down) {
            let spots = self.rows[row].iter();
            let mut keyed: Vec<(f64, usize)> = spots.map(|&spot| (self.middle(spot, down, &place), spot)).collect();
            keyed.sort_by(|one, two| one.0.total_cmp(&two.0));
            self.rows[row] = keyed.into_iter().map(|(_, spot)| spot).collect();
            self.rows[row].iter().enumerate().for_each(|(at, &spot)| place[spot] = at as f64);
        }
    }

    /// The rows from above, or from below.
    fn in_turn(&self, down: bool) -> Vec<usize> {
        let rows = 0..self.rows.len();
        if down {
            rows.collect()
        } else {
            rows.rev().collect()
        }
    }

    fn middle(&self, spot: usize, down: bool, place: &[f64]) -> f64 {
        let linked = self.linked(spot, down);
        if linked.is_empty() {
            return place[spot];
        }
        linked.iter().map(|&(other, _)| place[other]).sum::<f64>() / linked.len() as f64
    }

    /// Moves each row to where its spots want to stand, keeping their order and the gaps.
    fn columns(&mut self) {
        for row in 0..self.rows.len() {
            let wanted: Vec<(f64, f64)> = self.rows[row].iter().map(|_| (0.0, 1.0)).collect();
            self.settle(row, &wanted);
        }
        let turns = (0..4 * self.sweeps()).flat_map(|sweep| self.in_turn(sweep % 2 == 0));
        for row in turns.collect::<Vec<_>>() {
            let wanted: Vec<(f64, f64)> = self.rows[row].iter().map(|&spot| self.wanted(spot)).collect();
            self.settle(row, &wanted);
        }
    }

    /// Where a spot wants to stand, by all it is linked with, and how much.
    fn wanted(&self, spot: usize) -> (f64, f64) {
        let links = self.above[spot].iter().chain(&self.below[spot]);
        let (sum, weight) =
            links.fold((0.0, 0.0), |(sum, all), &(other, weight)| (sum + weight * self.centre[other], all + weight));
        if weight == 0.0 {
            (self.centre[spot], 0.01)
        } else {
            (sum / weight, weight)
        }
    }

    /// Makes each long way upright where there is a column that is free in all its rows.
    fn straighten(&mut self) {
        for chain in self.chains.clone() {
            let lanes = &chain[1..chain.len() - 1];
            let free = lanes.iter().map(|&lane| self.free(lane));
            let (low, high) =
                free.fold((f64::NEG_INFINITY, f64::INFINITY), |all, own| (all.0.max(own.0), all.1.min(own.1)));
            if lanes.is_empty() || low > high {
                continue;
            }
            let mean = lanes.iter().map(|&lane| self.centre[lane]).sum::<f64>() / lanes.len() as f64;
            lanes.iter().for_each(|&lane| self.centre[lane] = mean.clamp(low, high));
        }
    }

    /// How far a spot can move between its neighbours.
    fn free(&self, spot: usize) -> (f64, f64) {
        let row = &self.rows[self.spots[spot].row];
        let at = row.iter().position(|&other| other == spot).expect("it stands in its row");
        let left = at.checked_sub(1).map(|before| row[before]);
        let low = left.map_or(f64::NEG_INFINITY, |left| self.centre[left] + self.gap(left, spot));
        let high = row.get(at + 1).map_or(f64::INFINITY, |&right| self.centre[right] - self.gap(spot, right));
        (low, high.max(low))
    }

    fn gap(&self, left: usize, right: usize) -> f64 {
        let boxes = self.spots[left].of.is_some() && self.spots[right].of.is_some();
        let between = if boxes { COLUMN_GAP } else { LANE };
        (self.spots[left].width + self.spots[right].width) / 2.0 + between
    }

    /// The places nearest to those wanted, least squares, with the gaps kept: runs that are too near
    /// are moved as one.
    fn settle(&mut self, row: usize, wanted: &[(f64, f64)]) {
        let spots = &self.rows[row];
        let mut offset = 0.0;
        // Each run: its mean, its weight, how many spots.
        let mut runs: Vec<(f64, f64, usize)> = Vec::new();
        let mut offsets = Vec::new();
        for (at, &spot) in spots.iter().enumerate() {
            offset += if at == 0 { 0.0 } else { self.gap(spots[at - 1], spot) };
            offsets.push(offset);
            let mut run = (wanted[at].0 - offset, wanted[at].1, 1);
            while let Some(&(mean, weight, count)) = runs.last().filter(|before| before.0 > run.0) {
                let all = weight + run.1;
                run = ((mean * weight + run.0 * run.1) / all, all, count + run.2);
                runs.pop();
            }
            runs.push(run);
        }
        let means = runs.iter().flat_map(|&(mean, _, count)| std::iter::repeat(mean).take(count));
        let places: Vec<f64> = means.zip(offsets).map(|(mean, offset)| mean + offset).collect();
        for (&spot, place) in self.rows[row].iter().zip(places) {
            self.centre[spot] = place;
        }
    }
}

/// Rows and columns of a grid that is settled, from the upper left corner.
struct Settled<'a> {
    grid: &'a Grid,
    sizes: &'a [Size],
    tops: Vec<f64>,
    heights: Vec<f64>,
}

impl<'a> Settled<'a> {
    fn new(grid: &'a Grid, sizes: &'a [Size]) -> Settled<'a> {
        let height = |row: &Vec<usize>| {
            let boxes = row.iter().filter_map(|&spot| grid.spots[spot].of);
            boxes.map(|at| sizes[at].height).fold(0.0, f64::max)
        };
        let heights: Vec<f64> = grid.rows.iter().map(height).collect();
        let next = |top: &mut f64, height: &f64| Some(std::mem::replace(top, *top + height + ROW_GAP));
        let tops = heights.iter().scan(0.0, next).collect();
        Settled { grid, sizes, tops, heights }
    }

    fn left(&self, spot: usize) -> f64 {
        self.grid.centre[spot] - self.grid.spots[spot].width / 2.0
    }

    fn right(&self, spot: usize) -> f64 {
        self.grid.centre[spot] + self.grid.spots[spot].width / 2.0
    }

    /// From the lower side of the first box: a line down to the end of its row, then in turn a way to
    /// the next row and a line through it.
    fn down(&self, chain: &[usize]) -> Vec<(f64, f64)> {
        let own = self.tops[self.grid.spots[chain[0]].row] + self.sizes[chain[0]].height;
        let mut points = vec![(self.grid.centre[chain[0]], own)];
        for &spot in chain {
            let (x, row) = (self.grid.centre[spot], self.grid.spots[spot].row);
            points.extend([(x, self.tops[row]), (x, self.tops[row] + self.heights[row])]);
        }
        points.remove(1);
        points.pop();
        points
    }

    /// Around everything in the rows between, on the nearer side; `lane` keeps such ways apart.
    fn back(&self, edge: &Edge, lane: usize) -> Vec<(f64, f64)> {
        let [from, to] = [edge.from, edge.to].map(|at| self.grid.spots[at].row);
        let between = || self.grid.rows[to..=from].iter().flatten().copied();
        let away = LANE * (1.5 + lane as f64);
        let left = between().map(|spot| self.left(spot)).fold(f64::INFINITY, f64::min) - away;
        let right = between().map(|spot| self.right(spot)).fold(f64::NEG_INFINITY, f64::max) + away;
        let (start, end) = (self.grid.centre[edge.from], self.grid.centre[edge.to]);
        let side = if end - left <= right - end { left } else { right };
        let bottom = self.tops[from] + self.sizes[edge.from].height;
        let (below, above) = (bottom + ROW_GAP / 3.0, self.tops[to] - ROW_GAP / 3.0);
        vec![(start, bottom), (start, below), (side, below), (side, above), (end, above), (end, self.tops[to])]
    }
}

/// Places boxes, given in an order in which `edges` lead from a box to a later one; `back` leads from a
/// box to an earlier one. The paths of `back` come after those of `edges`.
pub fn place(sizes: &[Size], edges: &[Edge], back: &[Edge]) -> Layout {
    let mut grid = Grid::new(sizes, edges);
    grid.order();
    grid.columns();
    grid.straighten();
    let settled = Settled::new(&grid, sizes);
    let mut paths: Vec<Vec<(f64, f64)>> = grid.chains.iter().map(|chain| settled.down(chain)).collect();
    paths.extend(back.iter().enumerate().map(|(lane, edge)| settled.back(edge, lane)));
    let mut corners: Vec<(f64, f64)> =
        (0..sizes.len()).map(|at| (settled.left(at), settled.tops[grid.spots[at].row])).collect();
    let sides = |points: &[(f64, f64)]| points.iter().map(|point| point.0).collect::<Vec<_>>();
    let mut reach: Vec<f64> = paths.iter().flat_map(|path| sides(path)).collect();
    reach.extend((0..sizes.len()).flat_map(|at| [settled.left(at), settled.right(at)]));
    let least = reach.iter().copied().fold(f64::INFINITY, f64::min);
    let most = reach.iter().copied().fold(f64::NEG_INFINITY, f64::max);
    corners.iter_mut().for_each(|corner| corner.0 -= least);
    paths.iter_mut().flatten().for_each(|point| point.0 -= least);
    let bottom = settled.tops.last().zip(settled.heights.last()).map_or(0.0, |(top, height)| top + height);
    let height = paths.iter().flatten().map(|point| point.1).fold(bottom, f64::max);
    Layout { corners, paths, width: most - least, height }
}

#[cfg(test)]
mod tests {
    use super::*;

    fn sizes(count: usize) -> Vec<Size> {
        (0..count).map(|at| Size { width: 60.0 + 30.0 * (at % 3) as f64, height: 40.0 }).collect()
    }

    fn edges(pairs: &[(usize, usize)]) -> Vec<Edge> {
        pairs.iter().map(|&(from, to)| Edge { from, to }).collect()
    }

    /// Boxes of one row stand apart from each other.
    fn apart(layout: &Layout, sizes: &[Size]) -> bool {
        (0..sizes.len()).all(|one| {
            (0..one).all(|two| {
                let (a, b) = (layout.corners[one], layout.corners[two]);
                a.1 != b.1 || a.0 + sizes[one].width < b.0 || b.0 + sizes[two].width < a.0
            })
        })
    }

    #[test]
    fn pairs_in_the_wrong_order_are_counted() {
        assert_eq!(inversions(&mut [1, 2, 3]), 0);
        assert_eq!(inversions(&mut [3, 1, 2, 2, 0]), 4 + 1 + 1 + 1);
    }

    #[test]
    fn a_branch_stands_side_by_side() {
        let sizes = sizes(4);
        let layout = place(&sizes, &edges(&[(0, 1), (0, 2), (1, 3), (2, 3)]), &[]);
        assert_eq!(layout.corners[1].1, layout.corners[2].1);
        assert!(apart(&layout, &sizes));
        assert!(layout.paths.iter().all(|path| path.first().expect("a start").1 < path.last().expect("an end").1));
    }

    #[test]
    fn long_and_back_ways_pass_beside_boxes() {
        let sizes = sizes(6);
        let forward = edges(&[(0, 1), (1, 2), (2, 3), (2, 4), (3, 4), (1, 5)]);
        let layout = place(&sizes, &forward, &edges(&[(4, 1)]));
        assert!(apart(&layout, &sizes));
        assert!(layout.corners.iter().all(|corner| corner.0 >= 0.0));
        for path in &layout.paths[5..] {
            for &(x, y) in &path[1..path.len() - 1] {
                let inside = |at: usize| {
                    let (left, top) = layout.corners[at];
                    x > left && x < left + sizes[at].width && y > top && y < top + sizes[at].height
                };
                assert!(!(0..sizes.len()).any(inside), "{x} {y} {layout:?}");
            }
        }
    }
}
