//! Dealing: parts the moves of a sheet into queues and a rest list, with clusters kept as plain sets of cells.

use crate::sheet::{Move, Sheet};
use std::collections::{BTreeMap, BTreeSet};

type Cells = BTreeSet<usize>;

/// Places of moves, queue by queue, and those of the rest list.
#[derive(Clone, Debug, Default, PartialEq, Eq)]
pub struct Dealing {
    pub queues: Vec<Vec<usize>>,
    pub rest: Vec<usize>,
}

/// Active cells that are kept together, and the numbers of the special clusters among them.
#[derive(Clone, Debug, Default)]
struct Cluster {
    cells: Cells,
    numbers: BTreeSet<usize>,
}

/// What fuse counts.
#[derive(Default)]
struct Counts {
    skipped: u64,
    sizes: BTreeMap<usize, u64>,
    pairs: BTreeMap<(usize, usize), u64>,
}

pub fn deal(sheet: &Sheet) -> Dealing {
    let active = active_cells(sheet);
    let named: Vec<Cells> = sheet.moves.iter().map(|one| active_of(one, &active)).collect();
    let mut clusters = single_clusters(&active);
    let specials = spot(&mut clusters, &named, &sheet.choices);
    let counts = fuse(&mut clusters, &named);
    merge(&mut clusters, &counts, specials, sheet);
    allocate(&clusters, &named)
}

/// The cells that some step writes.
fn active_cells(sheet: &Sheet) -> Cells {
    let steps = sheet.moves.iter().flat_map(|one| &one.steps);
    steps.filter(|step| sheet.kind.writes(step.letter)).map(|step| step.cell).collect()
}

/// The active cells that a move names, be it only by a look.
fn active_of(one: &Move, active: &Cells) -> Cells {
    one.steps.iter().map(|step| step.cell).filter(|cell| active.contains(cell)).collect()
}

fn single_clusters(active: &Cells) -> Vec<Cluster> {
    active.iter().map(|&cell| Cluster { cells: Cells::from([cell]), numbers: BTreeSet::new() }).collect()
}

/// Makes the special clusters of the choices and answers how many there are.
fn spot(clusters: &mut Vec<Cluster>, named: &[Cells], choices: &[usize]) -> usize {
    let mut specials = 0;
    for &choice in choices {
        let cells = &named[choice];
        if cells.is_empty() || !numbers_touched(clusters, cells).is_empty() {
            continue;
        }
        join(clusters, |cluster| touches(cells, cluster), Some(specials));
        specials += 1;
    }
    specials
}

fn fuse(clusters: &mut Vec<Cluster>, named: &[Cells]) -> Counts {
    let mut counts = Counts::default();
    for cells in named {
        let touched: Vec<usize> = numbers_touched(clusters, cells).into_iter().collect();
        if touched.len() >= 2 {
            counts.skip(&touched);
            continue;
        }
        if let Some(&number) = touched.first() {
            *counts.sizes.entry(number).or_default() += 1;
        }
        join(clusters, |cluster| touches(cells, cluster), None);
    }
    counts
}

fn merge(clusters: &mut Vec<Cluster>, counts: &Counts, specials: usize, sheet: &Sheet) {
    if 1_000 * counts.skipped < sheet.share * sheet.moves.len() as u64 {
        return;
    }
    for i in 0..specials {
        for j in i + 1..specials {
            if counts.belong_together(i, j, sheet.share) {
                join(clusters, |cluster| cluster.numbers.contains(&i) || cluster.numbers.contains(&j), None);
            }
        }
    }
}

fn allocate(clusters: &[Cluster], named: &[Cells]) -> Dealing {
    let mut dealing = Dealing::default();
    // The queue of each cluster, by its root; that of the moves without active cells by none.
    let mut queue_of: BTreeMap<Option<usize>, usize> = BTreeMap::new();
    for (place, cells) in named.iter().enumerate() {
        let roots: Vec<usize> = clusters.iter().filter(|cluster| touches(cells, cluster)).map(root).collect();
        if roots.len() >= 2 {
            dealing.rest.push(place);
            continue;
        }
        let queue = *queue_of.entry(roots.first().copied()).or_insert(dealing.queues.len());
        if queue == dealing.queues.len() {
            dealing.queues.push(Vec::new());
        }
        dealing.queues[queue].push(place);
    }
    dealing
}

impl Counts {
    /// Counts a skipped move that touches these special clusters, which rise.
    fn skip(&mut self, touched: &[usize]) {
        self.skipped += 1;
        for (at, &i) in touched.iter().enumerate() {
            for &j in &touched[at + 1..] {
                *self.pairs.entry((i, j)).or_default() += 1;
            }
        }
    }

    fn belong_together(&self, i: usize, j: usize, share: u64) -> bool {
        let size = |number| self.sizes.get(&number).copied().unwrap_or(0);
        let pair = self.pairs.get(&(i, j)).copied().unwrap_or(0);
        1_000 * pair >= share * (size(i) + size(j) + pair)
    }
}

fn root(cluster: &Cluster) -> usize {
    *cluster.cells.last().expect("a cluster has a cell")
}

fn touches(cells: &Cells, cluster: &Cluster) -> bool {
    cells.iter().any(|cell| cluster.cells.contains(cell))
}

/// The numbers of the special clusters that these cells touch.
fn numbers_touched(clusters: &[Cluster], cells: &Cells) -> BTreeSet<usize> {
    let touched = clusters.iter().filter(|cluster| touches(cells, cluster));
    touched.flat_map(|cluster| cluster.numbers.iter().copied()).collect()
}

/// Makes one cluster of those picked; it keeps all their numbers and gets the new one.
fn join(clusters: &mut Vec<Cluster>, picked: impl Fn(&Cluster) -> bool, new_number: Option<usize>) {
    let (parts, mut others): (Vec<Cluster>, Vec<Cluster>) = clusters.drain(..).partition(|cluster| picked(cluster));
    let mut whole = Cluster::default();
    for part in parts {
        whole.cells.extend(part.cells);
        whole.numbers.extend(part.numbers);
    }
    whole.numbers.extend(new_number);
    if !whole.cells.is_empty() {
        others.push(whole);
    }
    *clusters = others;
}
