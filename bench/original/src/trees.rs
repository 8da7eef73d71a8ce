//! The series of trees of parentheses: a random one, a path, and a node with many leaves.

use crate::report::{Series, Settings};
use crate::workload::{NONE, Random, folded, parentheses, summed};
use vers_vecs::{BitVec, BpTree, LevelTree, SubtreeSize, Tree};

/// The trees that are measured.
#[derive(Clone, Copy)]
pub enum Shape {
    /// A random tree, each as likely as any other.
    Random,
    /// Each node but the last has one child.
    Path,
    /// All nodes but the first are its children.
    Star,
}

type Parentheses = BpTree<512>;

fn bits_of(shape: Shape, count: usize) -> BitVec {
    match shape {
        Shape::Random => {
            let mut bits = BitVec::from_limbs(&parentheses(count));
            bits.drop_last(bits.len() - count);
            bits
        }
        Shape::Path => BitVec::from_bool_iter((0..count).map(|i| i < count / 2)),
        Shape::Star => BitVec::from_bool_iter((0..count).map(|i| i == 0 || i + 1 < count && i % 2 == 1)),
    }
}

fn answer(position: Option<usize>) -> u64 {
    position.map_or(NONE, |it| it as u64)
}

// From the root through the whole tree by first children, next siblings and parents: each node as it is entered.
fn walked(tree: &Parentheses) -> impl Iterator<Item = usize> + '_ {
    std::iter::successors(tree.root(), |&node| {
        tree.first_child(node).or_else(|| {
            let mut above = Some(node);
            while let Some(left) = above {
                if let Some(next) = tree.next_sibling(left) {
                    return Some(next);
                }
                above = tree.parent(left);
            }
            None
        })
    })
}

/// The series `tree`: a tree of `nodes` nodes, or with one more where all are children of the first, and `query_count`
/// queries of each kind.
pub fn run(settings: &Settings, shape: Shape, nodes: usize, query_count: usize) {
    let (kind, count) = match shape {
        Shape::Random => ("", nodes * 2),
        Shape::Path => ("path ", nodes * 2),
        Shape::Star => ("star ", nodes * 2 + 2),
    };
    let series = Series { settings, structure: "tree", parameters: format!("{kind}bits={count}") };
    let bits = bits_of(shape, count);
    series.build("build", count, bits.count_ones(), || bits.clone(), Parentheses::from_bit_vector);
    let tree = Parentheses::from_bit_vector(bits);
    series.size("heap_bits_per_item", tree.heap_size() as f64 * 8.0 / count as f64);
    let mut random = Random::new(11);
    let numbers = random.many_below(query_count, tree.size() as u64);
    let nodes: Vec<usize> = numbers.iter().map(|&it| tree.node_handle(it as usize)).collect();
    let levels: Vec<u64> = random.many_below(query_count, 16).iter().map(|it| it + 1).collect();
    let ends: Vec<usize> = nodes.iter().map(|&it| tree.close(it).unwrap_or(it)).collect();
    series.run("close", query_count, || folded(nodes.iter().map(|&it| answer(tree.close(it)))));
    series.run("open", query_count, || folded(ends.iter().map(|&it| answer(tree.open(it)))));
    series.run("parent", query_count, || folded(nodes.iter().map(|&it| answer(tree.parent(it)))));
    series.run("subtree_size", query_count, || folded(nodes.iter().map(|&it| answer(tree.subtree_size(it)))));
    series.run("level_ancestor", query_count, || {
        folded(nodes.iter().zip(&levels).map(|(&node, &up)| answer(tree.level_ancestor(node, up))))
    });
    let few = &nodes[..query_count / 5];
    let children = || few.iter().flat_map(|&it| tree.children(it));
    series.run("children", few.len() + children().count(), || folded(children().map(|it| it as u64)));
    series.walk("dfs_iter", tree.size(), || summed(tree.dfs_iter().map(|it| it as u64)));
    series.walk("dfs_walk", tree.size(), || folded(walked(&tree).map(|it| it as u64)));
}
