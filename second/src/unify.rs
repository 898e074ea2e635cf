//! Unification on a graph of shared nodes: classes by union-find, then one
//! test that no class stands inside itself. Nothing is expanded on the way.

use crate::term::Term;

#[derive(Clone, Copy)]
enum Node {
    Var,
    /// Symbol, then the first argument's place in the pool and how many.
    App(u8, usize, usize),
}

#[derive(Default)]
pub struct Graph {
    nodes: Vec<Node>,
    parent: Vec<usize>,
    pool: Vec<usize>,
}

/// The nodes of one side's variables, by their numbers there.
pub type Side = Vec<Option<usize>>;

impl Graph {
    pub fn new() -> Graph {
        Graph::default()
    }

    fn push(&mut self, node: Node) -> usize {
        self.nodes.push(node);
        self.parent.push(self.nodes.len() - 1);
        self.nodes.len() - 1
    }

    /// Adds a term; each side's variables are nodes of their own.
    pub fn add(&mut self, term: &Term, side: &mut Side) -> usize {
        match term {
            Term::Var(v) => {
                if side.len() <= *v {
                    side.resize(*v + 1, None);
                }
                let node = side[*v].unwrap_or_else(|| self.push(Node::Var));
                side[*v] = Some(node);
                node
            }
            Term::App(f, args) => {
                let start = self.pool.len();
                self.pool.resize(start + args.len(), 0);
                for (i, a) in args.iter().enumerate() {
                    let node = self.add(a, side);
                    self.pool[start + i] = node;
                }
                self.push(Node::App(*f, start, args.len()))
            }
        }
    }

    /// The node that stands for a class.
    pub fn find(&mut self, node: usize) -> usize {
        let mut root = node;
        while self.parent[root] != root {
            root = self.parent[root];
        }
        let mut at = node;
        while self.parent[at] != root {
            at = std::mem::replace(&mut self.parent[at], root);
        }
        root
    }

    /// Whether the class has no symbol; if so, its root is the variable.
    pub fn is_free(&mut self, node: usize) -> bool {
        let root = self.find(node);
        matches!(self.nodes[root], Node::Var)
    }

    /// Makes two nodes equal, or says that no substitution does.
    pub fn unify(&mut self, a: usize, b: usize) -> bool {
        let mut todo = vec![(a, b)];
        while let Some((a, b)) = todo.pop() {
            let (a, b) = (self.find(a), self.find(b));
            if a == b {
                continue;
            }
            match (self.nodes[a], self.nodes[b]) {
                (Node::Var, _) => self.parent[a] = b,
                (_, Node::Var) => self.parent[b] = a,
                (Node::App(f, at, n), Node::App(g, to, m)) => {
                    if f != g || n != m {
                        return false;
                    }
                    self.parent[a] = b;
                    todo.extend((0..n).map(|i| (self.pool[at + i], self.pool[to + i])));
                }
            }
        }
        let mut marks = vec![Mark::New; self.nodes.len()];
        self.acyclic(a, &mut marks)
    }

    /// Each class is walked once; meeting one still being walked is a circle.
    fn acyclic(&mut self, node: usize, marks: &mut [Mark]) -> bool {
        let root = self.find(node);
        match marks[root] {
            Mark::Done => return true,
            Mark::Walking => return false,
            Mark::New => marks[root] = Mark::Walking,
        }
        if let Node::App(_, at, n) = self.nodes[root] {
            for i in at..at + n {
                if !self.acyclic(self.pool[i], marks) {
                    return false;
                }
            }
        }
        marks[root] = Mark::Done;
        true
    }

    /// Tokens of the instance, counted on the graph up to `cap` and no further.
    pub fn size(&mut self, node: usize, cap: usize, memo: &mut Vec<usize>) -> usize {
        memo.resize(self.nodes.len(), 0);
        let root = self.find(node);
        if memo[root] == 0 {
            let mut total = 1;
            if let Node::App(_, at, n) = self.nodes[root] {
                for i in at..at + n {
                    total = cap.min(total + self.size(self.pool[i], cap, memo));
                }
            }
            memo[root] = total;
        }
        memo[root]
    }

    /// The instance as a tree, variables named by their nodes; ask the size first.
    pub fn expand(&mut self, node: usize) -> Term {
        let root = self.find(node);
        match self.nodes[root] {
            Node::Var => Term::Var(root),
            Node::App(f, at, n) => {
                let args = (at..at + n).map(|i| self.expand(self.pool[i])).collect();
                Term::App(f, args)
            }
        }
    }
}

#[derive(Clone, Copy)]
enum Mark {
    New,
    Walking,
    Done,
}

/// Refuses at a glance what differs in a symbol at the same place.
pub fn may_unify(a: &Term, b: &Term) -> bool {
    match (a, b) {
        (Term::App(f, x), Term::App(g, y)) => {
            f == g && x.iter().zip(y).all(|(a, b)| may_unify(a, b))
        }
        _ => true,
    }
}
