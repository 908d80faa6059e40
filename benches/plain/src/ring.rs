//! The ring of tokens, and the preference list of a key.
use crate::contexts::MAX_NODES;
use crate::faults::Fault;
use crate::md5;

pub const MAX_TOKENS_PER_NODE: usize = 64;

pub struct Ring {
    nodes: usize,
    /// Each token's position and its node, in rising position.
    tokens: Vec<(u128, u8)>,
}

impl Ring {
    /// The ring in which each node has the tokens of its list.
    pub fn new(lists: &[Vec<u128>]) -> Result<Ring, Fault> {
        if lists.len() > MAX_NODES || lists.iter().any(|it| it.len() > MAX_TOKENS_PER_NODE) {
            return Err(Fault::TooMany);
        }
        if lists.is_empty() {
            return Err(Fault::NodeWithoutToken(0));
        }
        if let Some(node) = lists.iter().position(Vec::is_empty) {
            return Err(Fault::NodeWithoutToken(node));
        }
        let of_node = |(node, list): (usize, &Vec<u128>)| -> Vec<(u128, u8)> {
            list.iter()
                .map(|position| (*position, node as u8))
                .collect()
        };
        let mut tokens: Vec<(u128, u8)> = lists.iter().enumerate().flat_map(of_node).collect();
        tokens.sort_unstable();
        if let Some(pair) = tokens.windows(2).find(|pair| pair[0].0 == pair[1].0) {
            return Err(Fault::TokenClash(pair[0].0));
        }
        Ok(Ring {
            nodes: lists.len(),
            tokens,
        })
    }

    /// The ring in which token t of node i is the digest of `i#t`.
    pub fn derived(nodes: usize, per_node: usize) -> Result<Ring, Fault> {
        if nodes > MAX_NODES || nodes > 0 && per_node > MAX_TOKENS_PER_NODE {
            return Err(Fault::TooMany);
        }
        let token = |node, number| md5::digest(format!("{node}#{number}").as_bytes());
        let list = |node| (0..per_node).map(|number| token(node, number)).collect();
        Ring::new(&(0..nodes).map(list).collect::<Vec<_>>())
    }

    pub fn nodes(&self) -> usize {
        self.nodes
    }

    /// All nodes in the order in which the key prefers them, of which the first n are its homes.
    pub fn preference(&self, key: &[u8], n: u8) -> Preference {
        let position = md5::digest(key);
        let first = self.tokens.partition_point(|token| token.0 <= position);
        let (before, after) = self.tokens.split_at(first);
        let mut nodes = Vec::with_capacity(self.nodes);
        for (_, node) in after.iter().chain(before) {
            if nodes.len() == self.nodes {
                break;
            }
            if !nodes.contains(node) {
                nodes.push(*node);
            }
        }
        Preference {
            nodes,
            n: n as usize,
        }
    }
}

pub struct Preference {
    nodes: Vec<u8>,
    n: usize,
}

impl Preference {
    pub fn nodes(&self) -> &[u8] {
        &self.nodes
    }

    pub fn homes(&self) -> &[u8] {
        &self.nodes[..self.n]
    }

    /// The home that the coordinator holds for: itself where it is one, else the first.
    pub fn home_for(&self, coordinator: u8) -> u8 {
        let homes = self.homes();
        if homes.contains(&coordinator) {
            coordinator
        } else {
            homes[0]
        }
    }

    /// The nodes that may stand in for a home, in the order in which they are asked.
    pub fn stand_ins(&self, coordinator: u8) -> impl Iterator<Item = u8> {
        self.nodes[self.n..]
            .iter()
            .copied()
            .filter(move |node| *node != coordinator)
    }
}
