"""A JSON document as a tree: two bits a node for its shape, and a list of labels in the order of the document.

    python3 json_tree.py [FILE]
"""

import json
import sys
from functools import reduce

import vers

SAMPLE = {"name": "vers", "authors": [{"name": "A"}, {"name": "B", "mail": None}], "counts": {"bits": [1, 2, 3]}}


def walk(value, label, shape, labels):
    """Appends the parentheses of a value, and the label of each node: its key or position, and the value of a leaf."""
    shape.append("(")
    children = value.items() if isinstance(value, dict) else enumerate(value) if isinstance(value, list) else ()
    labels.append((label, None if isinstance(value, (dict, list)) else value))
    for key, child in children:
        walk(child, key, shape, labels)
    shape.append(")")


class Document:
    """The nodes of a document, each a position where a parenthesis opens."""

    def __init__(self, value):
        shape, self.labels = [], []
        walk(value, "$", shape, self.labels)
        self.tree = vers.BpTree("".join(shape))

    def path(self, node):
        """The labels from the root to a node: the key or the position by which its parent has each."""
        up = [self.tree.level_ancestor(node, level) for level in range(self.tree.depth(node), -1, -1)]
        return [self.labels[self.tree.node_index(it)][0] for it in up]

    def find(self, key):
        """The nodes that have a key."""
        return [self.tree.node_handle(k) for k, (label, _) in enumerate(self.labels) if label == key]


def main(file=None):
    """Compares the tree with its document, and prints the tree's measures and the paths of a key."""
    whole = json.load(open(file, encoding="utf-8")) if file else SAMPLE
    document = Document(whole)
    tree, nodes = document.tree, list(document.tree.dfs_iter())
    for node, (_, leaf) in zip(nodes, document.labels):
        value = reduce(lambda it, key: it[key], document.path(node)[1:], whole)
        is_inner = isinstance(value, (dict, list))
        assert (len([*tree.children(node)]), leaf) == ((len(value), None) if is_inner else (0, value))
    print(f"{tree.size()} nodes, {sum(tree.is_leaf(nodes))} leaves, {max(tree.depth(nodes))} levels below the root")
    print("children of the root:", [document.path(it)[-1] for it in tree.children(0)])
    for node in document.find("name"):
        print(*document.path(node), "=", document.labels[tree.node_index(node)][1])
    print("largest child of the root:", *document.path(max(tree.children(0), key=tree.subtree_size))[1:])


if __name__ == "__main__":
    main(*sys.argv[1:])
