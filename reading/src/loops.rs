//! Loops: a branch back to where the program can come from to it again.
use crate::flow::{ways, Flow, Kind};
use crate::listing::Listing;
use std::collections::BTreeMap;

/// How many loops inside of one another are drawn.
pub const LEVELS: usize = 3;

/// What the margin shows of a loop beside a line.
#[derive(Clone, Copy, Debug, PartialEq)]
pub enum Bar {
    None,
    Begins,
    Inside,
    Ends,
    /// A line that branches to itself.
    Whole,
}

/// The lines in their order, each with the places of the lines that follow it within a routine.
fn graph(listing: &Listing, flow: &Flow) -> Vec<Vec<usize>> {
    let places: BTreeMap<u32, usize> = flow
        .reached
        .iter()
        .enumerate()
        .map(|(i, a)| (*a, i))
        .collect();
    flow.reached
        .iter()
        .filter_map(|address| listing.at(*address))
        .map(|line| {
            let on = ways(line)
                .into_iter()
                .filter(|(kind, _)| *kind != Kind::Calls);
            on.filter_map(|(_, to)| places.get(&to).copied()).collect()
        })
        .collect()
}

/// For each place the first of those with which it stands in a circle (Tarjan's way, without recursion).
fn circles(graph: &[Vec<usize>]) -> Vec<usize> {
    const NEW: usize = usize::MAX;
    let size = graph.len();
    let (mut order, mut low, mut circle) = (vec![NEW; size], vec![0; size], vec![NEW; size]);
    let (mut stack, mut count) = (Vec::new(), 0);
    for root in 0..size {
        if order[root] != NEW {
            continue;
        }
        let mut path = vec![(root, 0)];
        while let Some((node, next)) = path.pop() {
            if next == 0 {
                order[node] = count;
                low[node] = count;
                count += 1;
                stack.push(node);
            } else {
                let child = graph[node][next - 1];
                if circle[child] == NEW {
                    low[node] = low[node].min(low[child]);
                }
            }
            match graph[node].get(next) {
                Some(&child) => {
                    path.push((node, next + 1));
                    if order[child] == NEW {
                        path.push((child, 0));
                    }
                }
                None if low[node] == order[node] => {
                    while let Some(member) = stack.pop() {
                        circle[member] = node;
                        if member == node {
                            break;
                        }
                    }
                }
                None => {}
            }
        }
    }
    circle
}

/// Who can come to whom again, by places among the reached lines.
pub struct Loops {
    graph: Vec<Vec<usize>>,
    circle: Vec<usize>,
    places: BTreeMap<u32, usize>,
}

impl Loops {
    pub fn of(listing: &Listing, flow: &Flow) -> Loops {
        let graph = graph(listing, flow);
        Loops {
            circle: circles(&graph),
            graph,
            places: flow
                .reached
                .iter()
                .enumerate()
                .map(|(i, a)| (*a, i))
                .collect(),
        }
    }

    /// Whether the program can come from one address to the other and back.
    pub fn hold(&self, one: u32, other: u32) -> bool {
        let circle = |address| self.places.get(address).map(|place| self.circle[*place]);
        circle(&one).is_some() && circle(&one) == circle(&other)
    }
}

/// The bars beside each reached line, outermost first; `section` numbers the routine in which a line stands.
pub fn bars(loops: &Loops, section: &[usize]) -> Vec<[Bar; LEVELS]> {
    let Loops { graph, circle, .. } = loops;
    let mut ends: BTreeMap<usize, usize> = BTreeMap::new();
    for (from, ways) in graph.iter().enumerate() {
        for &to in ways {
            if to <= from && circle[to] == circle[from] && section[to] == section[from] {
                let last = ends.entry(to).or_insert(from);
                *last = from.max(*last);
            }
        }
    }
    let mut loops: Vec<(usize, usize)> = ends.into_iter().collect();
    loops.sort_by_key(|(first, last)| (last - first, *first));
    let mut bars = vec![[Bar::None; LEVELS]; graph.len()];
    for (first, last) in loops {
        let free = |level: &usize| {
            bars[first..=last]
                .iter()
                .all(|row| row[*level] == Bar::None)
        };
        let Some(level) = (0..LEVELS).rev().find(free) else {
            continue;
        };
        for row in &mut bars[first..=last] {
            row[level] = Bar::Inside;
        }
        bars[first][level] = if first == last {
            Bar::Whole
        } else {
            Bar::Begins
        };
        if first != last {
            bars[last][level] = Bar::Ends;
        }
    }
    bars
}

#[cfg(test)]
mod tests {
    use super::*;

    #[test]
    fn circles_are_found() {
        // 0 -> 1 -> 2 -> 0, 2 -> 3, 3 -> 3, 4 -> 1
        let graph = vec![vec![1], vec![2], vec![3, 0], vec![3], vec![1]];
        let found = circles(&graph);
        assert_eq!(found[0], found[1]);
        assert_eq!(found[1], found[2]);
        assert_ne!(found[2], found[3]);
        assert_ne!(found[4], found[1]);
    }
}
