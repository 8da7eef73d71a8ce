//! Trees against lists of parents.
use crate::plain::Random;
use vers_vecs::{BitVec, BpBuilder, BpTree, IsAncestor, LevelTree, SubtreeSize, Tree, TreeBuilder};

/// A tree as plain lists over its nodes in preorder.
#[derive(Default)]
struct Plain {
    positions: Vec<usize>,
    ends: Vec<usize>,
    parents: Vec<Option<usize>>,
    depths: Vec<u64>,
    postorder: Vec<usize>,
}

impl Plain {
    fn of(bits: &BitVec) -> Plain {
        let mut plain = Plain::default();
        let mut open = Vec::new();
        for (position, bit) in bits.iter().enumerate() {
            if bit == 1 {
                plain.parents.push(open.last().copied());
                plain.depths.push(open.len() as u64);
                open.push(plain.positions.len());
                plain.positions.push(position);
                plain.ends.push(0);
            } else {
                let node = open.pop().unwrap();
                plain.ends[node] = plain.positions.len();
                plain.postorder.push(plain.positions[node]);
            }
        }
        plain
    }

    fn position(&self, node: Option<usize>) -> Option<usize> {
        node.map(|node| self.positions[node])
    }

    fn children(&self, node: usize) -> Vec<usize> {
        (node..self.ends[node]).filter(|&it| self.parents[it] == Some(node)).collect()
    }
}

/// A random walk over a forest with a number of nodes, whose nodes are deeper for a greater `down`.
fn walk(random: &mut Random, nodes: usize, down: u64) -> BitVec {
    let (mut builder, mut depth, mut left) = (BitVec::new(), 0, nodes);
    while left + depth > 0 {
        let enters = left > 0 && (depth == 0 || random.below(down + 3) <= down);
        builder.append(enters);
        if enters {
            (depth, left) = (depth + 1, left - 1);
        } else {
            depth -= 1;
        }
    }
    builder
}

#[test]
fn nodes_are_found() {
    let mut random = Random::new(1);
    for (nodes, down) in [(1, 1), (2, 0), (9, 1), (80, 0), (300, 2), (1000, 1), (700, 100)] {
        let bits = walk(&mut random, nodes, down);
        let (plain, tree) = (Plain::of(&bits), BpTree::<64>::from(bits.clone()));
        assert_eq!((tree.size(), tree.root(), tree.is_balanced()), (nodes, Some(0), true));
        assert!(tree.iter().eq(plain.positions.iter().copied()));
        assert!(tree.dfs_post_iter().eq(plain.postorder.iter().copied()));
        for node in 0..nodes {
            asked(&mut random, &plain, &tree, node);
        }
        for depth in 0..5 + *plain.depths.iter().max().unwrap() {
            let mut level = (0..nodes).filter(|&node| plain.depths[node] == depth);
            assert_eq!(tree.level_leftmost(depth), plain.position(level.clone().next()));
            assert_eq!(tree.level_rightmost(depth), plain.position(level.next_back()));
        }
        assert_eq!(BitVec::from(tree.clone()), bits);
        assert!(tree.into_iter().eq(plain.positions));
    }
}

/// Compares the answers for a node.
fn asked(random: &mut Random, plain: &Plain, tree: &BpTree<64>, node: usize) {
    let (position, nodes) = (plain.positions[node], plain.positions.len());
    let children = plain.children(node);
    let siblings = match plain.parents[node] {
        Some(parent) => plain.children(parent),
        None => (0..nodes).filter(|&it| plain.parents[it].is_none()).collect(),
    };
    let number = siblings.iter().position(|&it| it == node).unwrap();
    let same_depth = |it: &usize| plain.depths[*it] == plain.depths[node];
    assert_eq!(tree.node_handle(node), position);
    assert_eq!(tree.node_index(position), node);
    assert_eq!(tree.parent(position), plain.position(plain.parents[node]));
    assert_eq!(tree.first_child(position), plain.position(children.first().copied()));
    assert_eq!(tree.last_child(position), plain.position(children.last().copied()));
    assert_eq!(tree.next_sibling(position), plain.position(siblings.get(number + 1).copied()));
    assert_eq!(tree.previous_sibling(position), plain.position(number.checked_sub(1).map(|before| siblings[before])));
    assert_eq!(tree.level_next(position), plain.position((node + 1..nodes).find(same_depth)));
    assert_eq!(tree.level_prev(position), plain.position((0..node).rev().find(same_depth)));
    assert_eq!((tree.is_leaf(position), tree.depth(position)), (children.is_empty(), plain.depths[node]));
    assert_eq!(tree.subtree_size(position), Some(plain.ends[node] - node));
    let positions = |nodes: &mut dyn Iterator<Item = usize>| nodes.map(|it| plain.positions[it]).collect::<Vec<_>>();
    assert_eq!(tree.children(position).collect::<Vec<_>>(), positions(&mut children.iter().copied()));
    assert_eq!(tree.rev_children(position).collect::<Vec<_>>(), positions(&mut children.iter().rev().copied()));
    assert_eq!(tree.subtree_iter(position).collect::<Vec<_>>(), positions(&mut (node..plain.ends[node])));
    let below = |it: &&usize| plain.positions[node..plain.ends[node]].contains(it);
    assert!(tree.subtree_post_iter(position).eq(plain.postorder.iter().filter(below).copied()));
    let other = random.below(nodes as u64) as usize;
    let is_ancestor = (node..plain.ends[node]).contains(&other);
    assert_eq!(tree.is_ancestor(position, plain.positions[other]), Some(is_ancestor));
    let mut ancestor = Some(node);
    for level in 0..4 {
        assert_eq!(tree.level_ancestor(position, level), plain.position(ancestor));
        ancestor = ancestor.and_then(|it| plain.parents[it]);
    }
}

/// Compares the answers for a position with a one with what the documentation says of any parentheses.
fn asked_by_definition(bits: &BitVec, excess: &[i64], tree: &BpTree, position: usize) {
    let is_one = |it: usize| bits.get(it) == Some(1);
    let ones = |range: std::ops::Range<usize>| range.filter(|&it| is_one(it)).count();
    let close = (position + 1..bits.len()).find(|&it| excess[it + 1] == excess[position]);
    let open = |close: usize| (0..close).rev().find(|&it| excess[it] == excess[close] - 1);
    let after = |from: usize, wanted: i64| (from + 1..bits.len()).find(|&it| excess[it + 1] == wanted);
    assert_eq!(tree.node_index(position), ones(0..position));
    assert_eq!(tree.first_child(position), Some(position + 1).filter(|&it| is_one(it)));
    assert_eq!(tree.last_child(position), close.filter(|_| is_one(position + 1)).and_then(|it| open(it - 1)));
    assert_eq!(tree.next_sibling(position), close.map(|it| it + 1).filter(|&it| is_one(it)));
    let before = position.checked_sub(1).filter(|&it| !is_one(it));
    assert_eq!(tree.previous_sibling(position), before.and_then(open));
    assert_eq!(tree.is_leaf(position), bits.get(position + 1) == Some(0));
    assert_eq!(tree.has_node(position), tree.is_balanced());
    assert_eq!((tree.parent(position), tree.enclose(position)), (open(position), open(position)));
    assert_eq!(tree.depth(position), (excess[position + 1] - 1).max(0) as u64);
    assert_eq!(tree.subtree_size(position), close.map(|it| ones(position..it)));
    assert_eq!(tree.level_next(position), close.and_then(|it| after(it, excess[it + 1] + 1)));
    let risen = (0..position).rev().find(|&it| excess[it] == excess[position] + 1);
    assert_eq!(tree.level_prev(position), risen.and_then(open));
    assert_eq!(tree.level_ancestor(position, 0), Some(position));
    let above = (0..position).rev().find(|&it| excess[it] == excess[position] - 2);
    assert_eq!(tree.level_ancestor(position, 2), above);
    for other in (position.saturating_sub(9)..position + 9).filter(|&it| is_one(it)) {
        assert_eq!(tree.is_ancestor(position, other), close.map(|it| (position..it).contains(&other)));
    }
}

#[test]
fn parentheses_that_are_not_balanced_are_searched() {
    let mut random = Random::new(2);
    for length in [0, 1, 2, 63, 64, 200, 1500] {
        let bits = BitVec::from_bits_u64(&random.numbers(length, 2));
        let tree: BpTree = BpTree::from_bit_vector(bits.clone());
        // the excess before each position, and at the end
        let mut excess = vec![0i64];
        for bit in &bits {
            excess.push(excess[excess.len() - 1] + if bit == 1 { 1 } else { -1 });
        }
        assert_eq!(tree.size(), bits.count_ones() as usize);
        assert_eq!(tree.is_balanced(), excess.iter().all(|&it| it >= 0) && excess[length] == 0);
        assert_eq!((tree.is_open(length), tree.clone().is_balanced()), (None, tree.is_balanced()));
        for position in 0..length {
            assert_eq!(tree.excess(position), excess[position + 1]);
            for rise in -3..=3 {
                let forward = (position + 1..length).find(|&it| excess[it + 1] == excess[position + 1] + rise);
                let backward = (0..position).rev().find(|&it| excess[it] == excess[position] + rise);
                assert_eq!(tree.fwd_search(position, rise), forward, "from {position} by {rise}");
                assert_eq!(tree.bwd_search(position, rise), backward, "from {position} back by {rise}");
            }
            assert_eq!(tree.close(position), tree.fwd_search(position, -1));
            assert_eq!(tree.open(position), tree.bwd_search(position, -1));
            if bits.get(position) == Some(1) {
                asked_by_definition(&bits, &excess, &tree, position);
            }
        }
        for depth in 0..4 {
            let first = if depth > 0 { tree.fwd_search(0, depth) } else { Some(0) };
            assert!(tree.is_balanced() || tree.level_leftmost(depth as u64) == first);
        }
        assert_eq!(BitVec::from(tree), bits);
    }
}

#[test]
fn a_walk_builds_a_tree() {
    let mut builder = BpBuilder::<512>::with_capacity(2);
    builder.enter_node();
    builder.enter_node();
    builder.leave_node();
    builder.leave_node();
    let tree = builder.build().unwrap();
    assert_eq!((tree.size(), tree.parent(1)), (2, Some(0)));

    let mut builder: BpBuilder = BpBuilder::default();
    builder.enter_node();
    builder.enter_node();
    assert_eq!(builder.build().err(), Some(2));
    let mut builder: BpBuilder = BpBuilder::new();
    builder.leave_node();
    assert_eq!(builder.build().err(), Some(-1));

    let tree = BpBuilder::<512>::new().build().unwrap();
    assert_eq!((tree.size(), tree.root(), tree.level_leftmost(0), tree.is_empty()), (0, None, None, true));
}

#[test]
fn a_block_has_up_to_2_to_the_32_bits() {
    let bits = BitVec::from_bits(&[1, 1, 0, 0]);
    assert_eq!(BpTree::<{ 1 << 32 }>::from_bit_vector(bits.clone()).parent(1), Some(0));
    assert_eq!(BpTree::<1>::from_bit_vector(bits).parent(1), Some(0));
}

#[test]
#[cfg(debug_assertions)]
#[should_panic(expected = "no node opens at 1")]
fn positions_where_no_node_opens_stop() {
    let tree: BpTree = BpTree::from(BitVec::from_bits(&[1, 0]));
    let _ = tree.is_ancestor(0, 1);
}

#[test]
fn ones_of_uneven_parentheses_answer_as_their_pages_say() {
    let tree: BpTree = BpTree::from(BitVec::from_bits(&[1, 1, 0]));
    assert_eq!((tree.parent(0), tree.parent(1)), (tree.enclose(0), tree.enclose(1)));
    assert_eq!((tree.first_child(0), tree.first_child(1), tree.last_child(0)), (Some(1), None, None));
    assert_eq!((tree.next_sibling(0), tree.next_sibling(1), tree.previous_sibling(1)), (None, None, None));
    assert_eq!((tree.node_index(1), tree.is_leaf(0), tree.is_leaf(1), tree.depth(1)), (1, false, true, 1));
    assert_eq!((tree.size(), tree.subtree_size(0), tree.subtree_size(1)), (2, None, Some(1)));
    assert_eq!((tree.is_ancestor(0, 1), tree.is_ancestor(1, 1)), (None, Some(true)));
    assert_eq!((tree.level_ancestor(1, 0), tree.level_ancestor(1, 1)), (Some(1), tree.bwd_search(1, -1)));
    assert_eq!((tree.level_next(0), tree.level_next(1)), (None, tree.fwd_search(2, 1)));
    assert_eq!(tree.level_prev(1), tree.bwd_search(1, 1).and_then(|position| tree.open(position)));
    assert_eq!((tree.level_leftmost(0), tree.level_leftmost(1)), (Some(0), tree.fwd_search(0, 1)));
    assert_eq!(tree.level_rightmost(1), tree.bwd_search(3, 1).and_then(|position| tree.open(position)));
}

/// A position without a node is answered as the pages say, where debug assertions don't stop the call.
#[test]
#[cfg(not(debug_assertions))]
fn positions_without_a_node_are_answered() {
    for items in [&[1, 1, 0, 0, 1, 0][..], &[1, 0, 0, 1, 1, 0, 1], &[0, 1, 0], &[]] {
        let bits = BitVec::from_bits(items);
        let (tree, len) = (BpTree::<512>::from_bit_vector(bits.clone()), bits.len());
        let is_one = |&it: &usize| bits.get(it) == Some(1);
        let ones = |range: std::ops::Range<usize>| range.filter(is_one).count();
        for position in (0..len + 2).chain([usize::MAX]).filter(|&it| !tree.has_node(it)) {
            let (close, end) = (tree.close(position), position.saturating_add(1));
            let excess = 2 * ones(0..end.min(len)) as i64 - end.min(len) as i64;
            let child = Some(end).filter(is_one);
            assert_eq!((tree.excess(position), tree.depth(position)), (excess, (excess - 1).max(0) as u64));
            assert_eq!(
                (tree.node_index(position), tree.parent(position)),
                (ones(0..position.min(len)), tree.enclose(position))
            );
            assert_eq!((tree.is_leaf(position), tree.first_child(position)), (bits.get(end) == Some(0), child));
            assert_eq!(tree.last_child(position), child.and(close).and_then(|it| tree.open(it - 1)));
            assert_eq!(tree.next_sibling(position), close.map(|it| it + 1).filter(is_one));
            let before = position.checked_sub(1).filter(|&it| bits.get(it) == Some(0));
            assert_eq!(tree.previous_sibling(position), before.and_then(|it| tree.open(it)));
            assert_eq!(tree.subtree_size(position), close.map(|it| ones(position..it)));
            assert_eq!(tree.level_next(position), close.and_then(|it| tree.fwd_search(it, 1)));
            assert_eq!(tree.level_prev(position), tree.bwd_search(position, 1).and_then(|it| tree.open(it)));
            let ancestors = [0, 2].map(|levels| tree.level_ancestor(position, levels));
            assert_eq!(ancestors, [Some(position), tree.bwd_search(position, -2)]);
            for other in 0..len + 2 {
                assert_eq!(tree.is_ancestor(position, other), close.map(|it| (position..it).contains(&other)));
            }
        }
    }
}

/// A forest of roots that are leaves, with only the calls that a `Tree` requires.
struct Leaves(usize);

#[rustfmt::skip]
impl Tree for Leaves {
    type NodeHandle = usize;
    fn root(&self) -> Option<usize> { self.0.checked_sub(1).and(Some(0)) }
    fn parent(&self, _: usize) -> Option<usize> { None }
    fn first_child(&self, _: usize) -> Option<usize> { None }
    fn next_sibling(&self, node: usize) -> Option<usize> { Some(node + 1).filter(|&it| it < self.0) }
    fn previous_sibling(&self, node: usize) -> Option<usize> { node.checked_sub(1) }
    fn last_child(&self, _: usize) -> Option<usize> { None }
    fn node_index(&self, node: usize) -> usize { node }
    fn node_handle(&self, index: usize) -> usize { index }
    fn is_leaf(&self, _: usize) -> bool { true }
    fn depth(&self, _: usize) -> u64 { 0 }
    fn size(&self) -> usize { self.0 }
}

#[test]
fn a_tree_of_a_user_is_empty_without_nodes() {
    assert_eq!([0, 1, 2].map(|nodes| Leaves(nodes).is_empty()), [true, false, false]);
}
