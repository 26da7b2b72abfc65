//! Layouts of a map whose older versions stay: what a look-up costs, and what a next revision costs, as
//! the map grows.
//!
//! A next revision looks its document up, and then makes two maps from two: that of documents, and that
//! of update numbers at another place. Each layout is a balanced tree in plain Rust, whose paths are
//! copied and whose other parts are shared by counts of owners. Nothing is inserted or removed, so each
//! does less than a real map would. The last is Rust's `BTreeMap`, which keeps no older version.

#[path = "../../../benches/clock.rs"]
mod clock;

use clock::used;
use std::borrow::Borrow;
use std::cmp::Ordering;
use std::collections::BTreeMap;
use std::hint::black_box;
use std::sync::Arc;
use std::time::Duration;

/// Numbers that look random, the same in each run.
struct Random(u64);

impl Random {
    fn below(&mut self, end: usize) -> usize {
        self.0 ^= self.0 << 13;
        self.0 ^= self.0 >> 7;
        self.0 ^= self.0 << 17;
        (self.0 % end as u64) as usize
    }
}

/// An id that lies in the value.
type Id = [u64; 3];

fn id(number: usize) -> Id {
    [number as u64, 0, 16]
}

/// A document, with its revisions in a block of their own.
struct Document {
    revisions: Vec<[u64; 5]>,
}

impl Document {
    fn next(&self) -> Arc<Document> {
        let mut revisions = self.revisions.clone();
        revisions[0][0] += 1;
        Arc::new(Document { revisions })
    }
}

type Pair = (Id, Arc<Document>);

/// A map that is made from another one.
trait Layout: Sized {
    fn of(pairs: &[Pair]) -> Self;
    fn get(&self, id: &Id) -> &Arc<Document>;
    fn with(self, id: &Id, document: Arc<Document>) -> Self;
}

/// A binary tree whose nodes hold their entries, or share them where `E` is an `Arc`.
#[derive(Clone)]
struct Binary<E>(Option<Arc<Node<E>>>);

struct Node<E> {
    entry: E,
    left: Binary<E>,
    right: Binary<E>,
    _size_and_height: [u64; 2],
}

impl<E: Clone + Borrow<Pair>> Binary<E> {
    fn node(entry: E, left: Binary<E>, right: Binary<E>) -> Binary<E> {
        Binary(Some(Arc::new(Node {
            entry,
            left,
            right,
            _size_and_height: [0; 2],
        })))
    }

    fn root(&self) -> &Node<E> {
        self.0.as_ref().unwrap()
    }

    fn copied(&self, id: &Id, entry: E) -> Binary<E> {
        let node = self.root();
        let own = || node.entry.clone();
        match id.cmp(&node.entry.borrow().0) {
            Ordering::Less => Binary::node(own(), node.left.copied(id, entry), node.right.clone()),
            Ordering::Greater => Binary::node(own(), node.left.clone(), node.right.copied(id, entry)),
            Ordering::Equal => Binary::node(entry, node.left.clone(), node.right.clone()),
        }
    }
}

impl<E: Clone + Borrow<Pair> + From<Pair>> Layout for Binary<E> {
    fn of(pairs: &[Pair]) -> Binary<E> {
        let Some(middle) = pairs.get(pairs.len() / 2) else {
            return Binary(None);
        };
        let (left, right) = pairs.split_at(pairs.len() / 2);
        Binary::node(E::from(middle.clone()), Binary::of(left), Binary::of(&right[1..]))
    }

    fn get(&self, id: &Id) -> &Arc<Document> {
        let mut node = self.root();
        loop {
            let pair: &Pair = node.entry.borrow();
            node = match id.cmp(&pair.0) {
                Ordering::Less => node.left.root(),
                Ordering::Greater => node.right.root(),
                Ordering::Equal => return &pair.1,
            }
        }
    }

    fn with(self, id: &Id, document: Arc<Document>) -> Binary<E> {
        self.copied(id, E::from((*id, document)))
    }
}

/// How many entries a leaf has at most, and how many children another node.
const WIDTH: usize = 12;

/// A tree of wide nodes. Each child has the least id below it beside it.
#[derive(Clone)]
enum Wide {
    Leaf(Arc<Vec<Pair>>),
    Node(Arc<Vec<(Id, Wide)>>),
}

/// Where the last item is whose id is not above this one.
fn place_of<T>(items: &[(Id, T)], id: &Id) -> usize {
    items.partition_point(|item| item.0 <= *id) - 1
}

/// The items, with another one at a place.
fn with_item<T: Clone>(items: &[(Id, T)], place: usize, item: T) -> Arc<Vec<(Id, T)>> {
    let mut copies = Vec::with_capacity(items.len());
    copies.extend_from_slice(&items[..place]);
    copies.push((items[place].0, item));
    copies.extend_from_slice(&items[place + 1..]);
    Arc::new(copies)
}

impl Wide {
    fn copied(&self, id: &Id, document: Arc<Document>) -> Wide {
        match self {
            Wide::Leaf(pairs) => Wide::Leaf(with_item(pairs, place_of(pairs, id), document)),
            Wide::Node(children) => {
                let place = place_of(children, id);
                let child = children[place].1.copied(id, document);
                Wide::Node(with_item(children, place, child))
            }
        }
    }
}

impl Layout for Wide {
    fn of(pairs: &[Pair]) -> Wide {
        let leaf = |pairs: &[Pair]| (pairs[0].0, Wide::Leaf(Arc::new(pairs.to_vec())));
        let node = |children: &[(Id, Wide)]| (children[0].0, Wide::Node(Arc::new(children.to_vec())));
        let mut level: Vec<_> = pairs.chunks(WIDTH).map(leaf).collect();
        while level.len() > 1 {
            level = level.chunks(WIDTH).map(node).collect();
        }
        level.pop().unwrap().1
    }

    fn get(&self, id: &Id) -> &Arc<Document> {
        let mut tree = self;
        loop {
            match tree {
                Wide::Leaf(pairs) => return &pairs[place_of(pairs, id)].1,
                Wide::Node(children) => tree = &children[place_of(children, id)].1,
            }
        }
    }

    fn with(self, id: &Id, document: Arc<Document>) -> Wide {
        self.copied(id, document)
    }
}

impl Layout for BTreeMap<Id, Arc<Document>> {
    fn of(pairs: &[Pair]) -> Self {
        pairs.iter().cloned().collect()
    }

    fn get(&self, id: &Id) -> &Arc<Document> {
        &self[id]
    }

    fn with(mut self, id: &Id, document: Arc<Document>) -> Self {
        self.insert(*id, document);
        self
    }
}

/// Documents of ascending ids, which lie in memory in an order that looks random.
fn scattered(len: usize, random: &mut Random) -> Vec<Pair> {
    let mut numbers: Vec<usize> = (0..len).collect();
    for place in (1..len).rev() {
        numbers.swap(place, random.below(place + 1));
    }
    let document = |number| (id(number), Arc::new(Document { revisions: vec![[0; 5]; 2] }));
    let mut pairs: Vec<Pair> = numbers.into_iter().map(document).collect();
    pairs.sort_by_key(|pair| pair.0);
    pairs
}

/// The map of documents, and that of update numbers.
struct Maps<M> {
    documents: M,
    numbers: M,
    len: usize,
}

impl<M: Layout> Maps<M> {
    fn of(len: usize, random: &mut Random) -> Maps<M> {
        let pairs = scattered(len, random);
        Maps {
            documents: M::of(&pairs),
            numbers: M::of(&pairs),
            len,
        }
    }

    fn after_revisions(mut self, times: usize, random: &mut Random) -> Maps<M> {
        for _ in 0..times {
            let (id, number) = (id(random.below(self.len)), id(random.below(self.len)));
            let next = self.documents.get(&id).next();
            self.documents = self.documents.with(&id, next.clone());
            self.numbers = self.numbers.with(&number, next);
        }
        self
    }

    fn look_up(&self, times: usize, random: &mut Random) {
        for _ in 0..times {
            let document = self.documents.get(&id(random.below(self.len)));
            black_box(document.revisions.len());
        }
    }
}

const TIMES: usize = 10_000;

/// The least microseconds of a look-up and of a next revision, once each document had three of them.
fn measured<M: Layout>(len: usize) -> [f64; 2] {
    let mut random = Random(88_172_645_463_325_252);
    let mut maps = Maps::<M>::of(len, &mut random).after_revisions(3 * len, &mut random);
    let mut least = [Duration::MAX; 2];
    for _ in 0..15 {
        let start = used();
        maps.look_up(TIMES, &mut random);
        let between = used();
        maps = maps.after_revisions(TIMES, &mut random);
        least = [least[0].min(between - start), least[1].min(used() - between)];
    }
    least.map(|time| time.as_secs_f64() * 1e6 / TIMES as f64)
}

fn print<M: Layout>(name: &str) {
    let all = [1_000, 10_000, 100_000].map(measured::<M>);
    for (call, what) in ["look-up", "next revision"].iter().enumerate() {
        let [few, more, many] = all.map(|times| times[call]);
        println!("{name:<28}{what:<15}{few:>8.2}{more:>8.2}{many:>8.2}   {:.1}", many / few);
    }
}

fn main() {
    println!("microseconds, by documents      1,000  10,000 100,000    ratio");
    print::<Binary<Arc<Pair>>>("binary, entries shared");
    print::<Binary<Pair>>("binary, entries in nodes");
    print::<Wide>("nodes of 12");
    print::<BTreeMap<Id, Arc<Document>>>("BTreeMap, no older versions");
}
