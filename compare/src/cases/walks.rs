//! Configurations as a graph, and random walks in it.

use std::cmp::Reverse;
use std::collections::{BinaryHeap, HashMap};
use std::hash::Hash;

use crate::generator::random::Random;

/// How many configurations are looked at.
const MOST_NODES: usize = 2000;

/// A configuration: a state, and how far the program is.
type Node<P> = (u16, P);

/// A transition or step: the entry of a plan that it stands for, if any, and the number of the node that it leads to.
type Link = (Option<u16>, usize);

/// How far a node is from an end: the cost of the way, and its links.
type Distance = (u64, usize);

/// Ways to an end: whether there is one from each node, and the first links of the best.
struct Ways {
    open: Vec<bool>,
    best: Vec<Vec<Link>>,
}

/// Configurations by number, from 0, which is the first one, and where each leads.
pub struct Graph<P> {
    nodes: Vec<Node<P>>,
    links: Vec<Vec<Link>>,
    last: P,
}

impl<P: Copy + Eq + Hash> Graph<P> {
    /// The graph of the configurations that can be reached, up to a bound; a program that is at `last` is complete.
    pub fn of(start: Node<P>, last: P, mut next: impl FnMut(Node<P>) -> Vec<(Option<u16>, Node<P>)>) -> Graph<P> {
        let mut numbers = HashMap::from([(start, 0)]);
        let mut graph = Graph { nodes: vec![start], links: Vec::new(), last };
        while graph.links.len() < graph.nodes.len() && graph.nodes.len() < MOST_NODES {
            let mut links = Vec::new();
            for (entry, to) in next(graph.nodes[graph.links.len()]) {
                let number = *numbers.entry(to).or_insert(graph.nodes.len());
                if number == graph.nodes.len() {
                    graph.nodes.push(to);
                }
                links.push((entry, number));
            }
            graph.links.push(links);
        }
        graph.links.resize(graph.nodes.len(), Vec::new());
        graph
    }

    /// The states in which the program is complete.
    pub fn end_states(&self) -> Vec<u16> {
        self.nodes.iter().filter(|(_, program)| *program == self.last).map(|(state, _)| *state).collect()
    }

    /// The entries of a walk that tries for `wander` entries and then goes to an end in a wanted state by a short way.
    /// Where no such end can be reached, the walk stops anywhere.
    pub fn walk(&self, random: &mut Random, wanted: impl Fn(u16) -> bool, wander: usize) -> Vec<u16> {
        self.walk_by(random, &self.ways(wanted, |_, _| 0), wander)
    }

    /// The entries of a cheapest walk to an end in a wanted state, by what an entry costs in the state before it.
    pub fn cheapest(
        &self,
        random: &mut Random,
        wanted: impl Fn(u16) -> bool,
        cost_of: impl Fn(u16, u16) -> u64,
    ) -> Vec<u16> {
        self.walk_by(random, &self.ways(wanted, cost_of), 0)
    }

    fn walk_by(&self, random: &mut Random, ways: &Ways, wander: usize) -> Vec<u16> {
        let mut entries = Vec::new();
        let mut node = 0;
        let mut left = 40 + 8 * wander;
        while let Some((entry, to)) = self.next(random, node, ways, left > 0 && entries.len() < wander) {
            entries.extend(entry);
            node = to;
            left = left.saturating_sub(1);
        }
        entries
    }

    /// The entries of a walk that tries a few times for just so many.
    pub fn walk_of(&self, random: &mut Random, wanted: impl Fn(u16) -> bool, count: usize) -> Vec<u16> {
        let mut walk = Vec::new();
        let mut wander = count;
        for _ in 0..4 {
            walk = self.walk(random, &wanted, wander);
            if walk.len() == count {
                break;
            }
            wander = (wander + count).saturating_sub(walk.len());
        }
        walk
    }

    /// The next link of a walk; none at its end.
    fn next(&self, random: &mut Random, node: usize, ways: &Ways, wander: bool) -> Option<Link> {
        let lost = !ways.open[node];
        let free = |(_, to): &Link| wander && (lost || ways.open[*to]) && !self.is_end(*to);
        let mut links: Vec<Link> = self.links[node].iter().copied().filter(free).collect();
        if links.is_empty() {
            links.clone_from(&ways.best[node]);
        }
        (!links.is_empty()).then(|| random.pick(&links))
    }

    fn is_end(&self, node: usize) -> bool {
        self.nodes[node].1 == self.last
    }

    /// The ways to ends in a wanted state: the best are cheapest, and of these shortest.
    fn ways(&self, wanted: impl Fn(u16) -> bool, cost_of: impl Fn(u16, u16) -> u64) -> Ways {
        let cost = |from: usize, entry: Option<u16>| entry.map_or(0, |entry| cost_of(entry, self.nodes[from].0));
        let ends = (0..self.nodes.len()).filter(|node| self.is_end(*node) && wanted(self.nodes[*node].0));
        let far = self.distances(ends, &cost);
        let is_best = |from: usize, (entry, to): &Link| {
            far[*to].is_some_and(|(spent, links)| far[from] == Some((spent + cost(from, *entry), links + 1)))
        };
        let best_of = |from: usize| self.links[from].iter().copied().filter(|link| is_best(from, link)).collect();
        Ways { open: far.iter().map(Option::is_some).collect(), best: (0..self.nodes.len()).map(best_of).collect() }
    }

    /// How far each node is from these ends; none where no way leads to one.
    fn distances(
        &self,
        ends: impl Iterator<Item = usize>,
        cost: &impl Fn(usize, Option<u16>) -> u64,
    ) -> Vec<Option<Distance>> {
        let mut back = vec![Vec::new(); self.links.len()];
        for (from, links) in self.links.iter().enumerate() {
            for (entry, to) in links {
                back[*to].push((from, cost(from, *entry)));
            }
        }
        let mut distances = vec![None; self.links.len()];
        let mut open: BinaryHeap<Reverse<(Distance, usize)>> = ends.map(|end| Reverse(((0, 0), end))).collect();
        while let Some(Reverse((distance, node))) = open.pop() {
            if distances[node].is_some() {
                continue;
            }
            distances[node] = Some(distance);
            let (spent, links) = distance;
            open.extend(back[node].iter().map(|(from, cost)| Reverse(((spent + cost, links + 1), *from))));
        }
        distances
    }
}
