//! A tree that owns its table.
use crate::*;
use std::ops::Range;

/// An accepted tree. Its methods lend the buffers of the calls, so a search needs no `Result`.
///
/// ```
/// # use buulset::Tree;
/// let leaf = Tree::from_file(b"000000000007\n")?;
/// let pair = Tree::from_file(b"000102000000\n000000000001\n000000000002\n")?;
/// assert_eq!(leaf.graft(0, &pair)?, pair);
/// assert_eq!(pair.with_value(1, 40)?.alphabeta().found.value, 40);
/// assert_eq!(pair.with_value(0, 40).unwrap_err().to_string(), "refused 19 0");
/// # Ok::<(), buulset::Refusal>(())
/// ```
#[derive(Clone, PartialEq, Eq, Debug)]
pub struct Tree {
    table: Vec<u8>,
}

/// What a search of a [`Tree`] gives.
#[derive(Clone, PartialEq, Eq, Debug)]
pub struct Search {
    /// What was found.
    pub found: Found,
    /// An entry a node: 1 for an evaluated leaf, else 0.
    pub evaluated: Vec<u8>,
    /// The flags of the certificate, an entry a node: 1 in the max tree, 2 in the min tree, 3 in both.
    pub certificate: Vec<u8>,
    /// The evaluated leaves in the order in which they were evaluated; empty for [`Tree::plain`], which keeps no list.
    pub order: Vec<u16>,
}

/// What is known if its allowance stopped a run of SSS*.
#[derive(Clone, PartialEq, Eq, Debug)]
pub struct Stopped {
    /// The merit and the counts so far.
    pub spent: Spent,
    /// An entry a node: 1 for an evaluated leaf, else 0.
    pub evaluated: Vec<u8>,
    /// The evaluated leaves in the order in which they were evaluated.
    pub order: Vec<u16>,
}

/// The best line of a [`Tree`]: what both sides play if each plays its best.
#[derive(Clone, PartialEq, Eq, Debug)]
pub struct Line {
    /// The minimax value of the root, over the leaves' worths; every node of the line has it.
    pub value: i16,
    /// The nodes from the root to a leaf.
    pub nodes: Vec<usize>,
}

const ACCEPTED: &str = "an accepted table with buffers of its size is not refused";

impl Tree {
    /// Reads a file.
    pub fn from_file(file: &[u8]) -> Result<Tree, Refusal> {
        let mut table = vec![0; (FRAME_SIZE * (file.len() / LINE_SIZE + 1)).min(MAX_TABLE)];
        let nodes = read(file, &mut table)?;
        table.truncate(FRAME_SIZE * nodes);
        Ok(Tree { table })
    }

    /// Takes a table.
    pub fn from_table(table: Vec<u8>) -> Result<Tree, Refusal> {
        check(&table)?;
        Ok(Tree { table })
    }

    /// The table: six bytes a node.
    pub fn table(&self) -> &[u8] {
        &self.table
    }

    /// The number of nodes.
    pub fn nodes(&self) -> usize {
        self.table.len() / FRAME_SIZE
    }

    /// The numbers of a node's children; empty on a leaf and past the last node.
    pub fn children(&self, node: usize) -> Range<usize> {
        let part = ffi::children(&self.table, node);
        part.first..part.first + part.count
    }

    /// What a leaf holds, and `None` for an inner node and past the last node.
    pub fn stored(&self, node: usize) -> Option<i16> {
        let frame = self.table.chunks(FRAME_SIZE).nth(node)?;
        (frame[2] == 0).then(|| i16::from_be_bytes([frame[4], frame[5]]))
    }

    /// Does the same side move at this node as at its parent?
    pub fn second_capture(&self, node: usize) -> bool {
        self.table.chunks(FRAME_SIZE).nth(node).is_some_and(|frame| frame[3] == 1)
    }

    /// The file of the tree.
    pub fn to_file(&self) -> Vec<u8> {
        let mut file = vec![0; LINE_SIZE * self.nodes()];
        write(&self.table, &mut file).expect(ACCEPTED);
        file
    }

    /// Alpha-beta.
    pub fn alphabeta(&self) -> Search {
        self.search(alphabeta)
    }

    /// Minimax without cuts.
    pub fn plain(&self) -> Search {
        self.search(|t, e, c, _| plain(t, e, c))
    }

    /// MTD.
    pub fn mtd(&self) -> Search {
        self.search(mtd)
    }

    /// MTD(f) from the value `start`, a guess of the value.
    pub fn mtdf(&self, start: i32) -> Search {
        self.search(|t, e, c, o| mtdf(t, start, e, c, o))
    }

    /// SSS* without an allowance.
    pub fn sss(&self) -> Search {
        self.sss_within(MAX_NODES).expect("no tree has more leaves than MAX_NODES")
    }

    /// SSS* that evaluates at most `allowance` leaves.
    pub fn sss_within(&self, allowance: usize) -> Result<Search, Stopped> {
        let mut spent = None;
        let search = self.search(|t, e, c, o| {
            Ok(match sss(t, e, c, o, allowance)? {
                Within::Found(found) => found,
                Within::Spent(s) => {
                    spent = Some(s);
                    Found { value: 0, root_move: None, leaves: s.leaves, steps: s.replacements }
                }
            })
        });
        match spent {
            None => Ok(search),
            Some(spent) => Err(Stopped { spent, evaluated: search.evaluated, order: search.order }),
        }
    }

    fn search<F>(&self, by: F) -> Search
    where
        F: FnOnce(&[u8], &mut [u8], &mut [u8], &mut [u16]) -> Result<Found, Refusal>,
    {
        let n = self.nodes();
        let (mut evaluated, mut certificate, mut order) = (vec![0; n], vec![0; n], vec![0; n]);
        let found = by(&self.table, &mut evaluated, &mut certificate, &mut order).expect(ACCEPTED);
        order.truncate(found.leaves);
        Search { found, evaluated, certificate, order }
    }

    /// The principal variation: from the root to a leaf by nodes of the root's value.
    ///
    /// ```
    /// # use buulset::Tree;
    /// let tree = Tree::from_file(b"000102000000\n000000000001\n000000000002\n")?;
    /// assert_eq!((tree.line().value, tree.line().nodes), (2, vec![0, 2]));
    /// # Ok::<(), buulset::Refusal>(())
    /// ```
    pub fn line(&self) -> Line {
        let mut nodes = vec![0; self.nodes()];
        let found = line(&self.table, &mut nodes).expect(ACCEPTED);
        Line { value: found.value, nodes: nodes[..found.length].iter().map(|&node| node.into()).collect() }
    }

    /// Checks a certificate of the tree, and gives the value that it certifies.
    pub fn verify(&self, certificate: &[u8]) -> Result<i16, Refusal> {
        verify(&self.table, certificate)
    }

    /// The flags of the shorter of two certificates of the tree.
    pub fn shorter<'a>(&self, first: &'a [u8], second: &'a [u8]) -> Result<&'a [u8], Refusal> {
        shorter(&self.table, first, second)
    }

    /// The tree with another in place of a leaf where Max would move.
    pub fn graft(&self, node: usize, other: &Tree) -> Result<Tree, Refusal> {
        let mut table = vec![0; (self.table.len() + other.table.len()).min(MAX_TABLE)];
        let nodes = graft(&self.table, node, &other.table, &mut table)?;
        table.truncate(FRAME_SIZE * nodes);
        Ok(Tree { table })
    }

    /// The smallest value of a leaf that gives the root a wanted value.
    pub fn least_value(&self, node: usize, wanted: i32) -> Result<i16, Refusal> {
        least_value(&self.table, node, wanted)
    }

    /// The tree with another value at a leaf: 19 where the node is no leaf, 7 where no leaf may hold the value.
    pub fn with_value(&self, node: usize, value: i32) -> Result<Tree, Refusal> {
        if self.stored(node).is_none() {
            return Err(Refusal { number: 19, place: node });
        }
        // what lies past 16 bits is out of the range of question 7, and so is the nearest that fits
        let stored = value.clamp(i16::MIN.into(), i16::MAX.into()) as i16;
        let mut table = self.table.clone();
        table[FRAME_SIZE * node + 4..][..2].copy_from_slice(&stored.to_be_bytes());
        Tree::from_table(table)
    }

    /// The tree of the same shape that costs alpha-beta most, and its number of leaves.
    pub fn filled(mut self) -> (Tree, usize) {
        let leaves = fill(&mut self.table).expect(ACCEPTED);
        (self, leaves)
    }
}
