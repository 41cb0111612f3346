//! Questions about trees, put to both sides, and about the fields that no answer shows.

use super::answers::{self, Answer, Both, Said, Written};
use super::hex;
use independent::hash::{self, Hash};
use independent::refusal::Refusal;
use independent::tree::{self, Tree};
use independent::write;
use trawlbeacon::{raw, Laid, Placed, Rooted};

impl Said for Rooted {
    fn say(&self) -> String {
        format!("depth {} root {}", self.depth, hex(&self.root))
    }
}

impl Said for Placed {
    fn say(&self) -> String {
        format!("INDX {} depth {}", self.indx, self.depth)
    }
}

impl Said for Laid {
    fn say(&self) -> String {
        format!("depth {}, {} bytes", self.depth, self.length)
    }
}

/// Whether a path leads to a root. Where it does not, a response is refused with code 10.
impl Answer for bool {
    fn code(&self) -> u32 {
        if *self {
            0
        } else {
            10
        }
    }

    fn show(&self) -> String {
        let leads = if *self { "leads" } else { "does not lead" };
        format!("{leads} to the root")
    }
}

/// A path to be checked.
#[derive(Clone)]
pub struct Walk {
    pub leaf: Hash,
    pub indx: u32,
    pub path: Vec<u8>,
    pub root: Hash,
}

impl Walk {
    /// The walk from `leaf` to where these siblings lead by the rule: at a bit of 0 the hash so far
    /// goes first.
    pub fn right(leaf: Hash, indx: u32, path: &[Hash]) -> Self {
        let mut root = leaf;
        for (step, sibling) in path.iter().enumerate() {
            let bit = u64::from(indx) >> step & 1;
            root =
                if bit == 0 { hash::parent(&root, sibling) } else { hash::parent(sibling, &root) };
        }
        Walk { leaf, indx, path: path.concat(), root }
    }

    pub fn show(&self) -> String {
        let (leaf, root) = (hex(&self.leaf), hex(&self.root));
        format!("leaf {leaf} INDX {} PATH {} ROOT {root}", self.indx, hex(&self.path))
    }
}

pub fn leads(walk: &Walk) -> Both<bool> {
    let Walk { leaf, indx, path, root } = walk;
    Both {
        ours: trawlbeacon::leads(leaf, *indx, path, root),
        independent: tree::leads(leaf, *indx, path, root),
    }
}

pub fn root(leaves: &[u8]) -> Both<Result<Rooted, u32>> {
    let independent =
        Tree::build(leaves).map(|tree| Rooted { depth: tree.depth(), root: tree.root() });
    Both {
        ours: trawlbeacon::root(leaves).map_err(trawlbeacon::Refusal::code),
        independent: independent.map_err(Refusal::code),
    }
}

/// The path of the leaf at `place`, put into `out`.
fn put_path(tree: Tree, place: usize, out: &mut [u8]) -> Result<Placed, Refusal> {
    let tree::Placed { indx, path } = tree.place(place)?;
    write::put(&path.concat(), out)?;
    Ok(Placed { indx, depth: path.len() })
}

pub fn path(leaves: &[u8], place: usize, buffer: &[u8]) -> Both<Written<Placed>> {
    answers::write_both(
        buffer,
        None,
        |out| trawlbeacon::path(leaves, place, out),
        |out| Tree::build(leaves).and_then(|tree| put_path(tree, place, out)),
    )
}

pub fn path_from(rows: &[u8], count: usize, place: usize, buffer: &[u8]) -> Both<Written<Placed>> {
    answers::write_both(
        buffer,
        None,
        |out| trawlbeacon::path_from(rows, count, place, out),
        |out| Tree::read(rows, count).and_then(|tree| put_path(tree, place, out)),
    )
}

pub fn rows(leaves: &[u8], buffer: &[u8]) -> Both<Written<Laid>> {
    answers::write_both(
        buffer,
        None,
        |out| trawlbeacon::rows(leaves, out),
        |out| {
            let tree = Tree::build(leaves)?;
            let length = write::put(&tree.bytes(), out)?;
            Ok(Laid { depth: tree.depth(), length })
        },
    )
}

/// What is wrong with the fields that the functions of hosts/rust never show, or not whole: those
/// of a refused call must be 0, and those of another within their bounds. The bytes are taken for
/// leaves and for rows.
pub fn unseen_fields(bytes: &[u8], count: usize, place: usize) -> Option<String> {
    let (start, n) = (bytes.as_ptr(), bytes.len());
    let mut out = [0; trawlbeacon::MOST_ROWS_LENGTH];
    // The most room is enough for anything, and the least for little.
    for m in [32, out.len()] {
        let to = out.as_mut_ptr();
        // SAFETY: the library only reads the bytes, and only writes `out`.
        let (rooted, laid) = unsafe {
            (raw::tb_root(start, raw::size(n)), raw::tb_rows(start, raw::size(n), to, raw::size(m)))
        };
        // SAFETY: as before.
        let placed = unsafe {
            [
                raw::tb_path(start, raw::size(n), raw::size(place), to, raw::size(m)),
                raw::tb_path_from(
                    start,
                    raw::size(n),
                    raw::size(count),
                    raw::size(place),
                    to,
                    raw::size(m),
                ),
            ]
        };
        let root_is_zero = rooted.root == [0; 32];
        let right = fits(rooted.code, 0, rooted.depth)
            && fits(laid.code, 0, laid.depth)
            && laid.length == if laid.code == 0 { 32 * ((2 << laid.depth) - 1) } else { 0 }
            && placed.iter().all(|placed| fits(placed.code, placed.indx, placed.depth))
            && (rooted.code == 0 || root_is_zero);
        if !right {
            return Some(format!("{m} bytes of room: {rooted:?}, {laid:?}, {placed:?}"));
        }
    }
    None
}

/// Whether an answer of this code can have this number and depth.
fn fits(code: u32, indx: u32, depth: u32) -> bool {
    match code {
        0 => depth <= 10 && indx < 1 << depth,
        19 | 20 => (indx, depth) == (0, 0),
        _ => false,
    }
}
