//! An XML document as a tree: two bits a node for its shape, and a list of names in document order.

use vers_vecs::trees::bp::BpBuilder;
use vers_vecs::{BpTree, Tree, TreeBuilder};

const SAMPLE: &str = "<library><list><bits/><symbols/></list><tree><bits/></tree></library>";

/// The elements of a document, each at the position where its parenthesis opens.
struct Document<'a> {
    tree: BpTree,
    names: Vec<&'a str>,
}

impl<'a> Document<'a> {
    /// Reads elements without text and attributes.
    fn new(text: &'a str) -> Option<Self> {
        let (mut builder, mut names) = (BpBuilder::<512>::new(), Vec::new());
        for tag in text.split('<').skip(1).map(|it| it.trim_end_matches('>')) {
            if tag.starts_with('/') {
                builder.leave_node();
                continue;
            }
            builder.enter_node();
            names.push(tag.trim_end_matches('/'));
            if tag.ends_with('/') {
                builder.leave_node();
            }
        }
        Some(Document { tree: builder.build().ok()?, names })
    }

    /// Returns the names from the root to a node.
    fn path(&self, node: usize) -> String {
        let up = std::iter::successors(Some(node), |&it| self.tree.parent(it));
        let mut names: Vec<&str> = up.map(|it| self.names[self.tree.node_index(it)]).collect();
        names.reverse();
        names.join("/")
    }
}

fn main() {
    let document = Document::new(SAMPLE).expect("a balanced document");
    let tree = &document.tree;
    let paths: Vec<String> = tree.dfs_iter().map(|it| document.path(it)).collect();
    let (mut open, mut plain) = (Vec::new(), Vec::new());
    for tag in SAMPLE.split('<').skip(1) {
        if !tag.starts_with('/') {
            open.push(tag.trim_end_matches(['/', '>']));
            plain.push(open.join("/"));
        }
        if tag.contains('/') {
            open.pop();
        }
    }
    assert_eq!(paths, plain);
    println!("{} elements, {} of them empty", tree.size(), tree.dfs_iter().filter(|&it| tree.is_leaf(it)).count());
    println!("bits: {:?}", paths.iter().filter(|it| it.ends_with("/bits")).collect::<Vec<_>>());
}
