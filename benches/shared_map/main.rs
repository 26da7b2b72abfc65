//! The shared map beside Rust's `BTreeMap`: how long its calls take, and how often they allocate.
//!
//! The library takes its memory by `rattle_alloc` and `rattle_dealloc` below, so this program
//! counts its allocations.

#[path = "../clock.rs"]
mod clock;

use clock::used;
use std::collections::BTreeMap;
use std::ffi::c_void;
use std::hint::black_box;
use std::ptr::NonNull;
use std::sync::atomic::{AtomicU64, Ordering::Relaxed};

unsafe extern "C" {
    fn shared_map_insert(keys: *const u64, len: usize) -> u64;
    fn shared_map_remove(keys: *const u64, len: usize, asked: *const u64, asked_len: usize) -> u64;
    fn shared_map_get(keys: *const u64, len: usize, asked: *const u64, asked_len: usize) -> u64;
    fn shared_map_count_from(
        keys: *const u64,
        len: usize,
        asked: *const u64,
        asked_len: usize,
    ) -> u64;
    fn shared_map_walk(keys: *const u64, len: usize, walks: u32) -> u64;

    fn malloc(size: usize) -> *mut c_void;
    fn free(block: *mut c_void);
}

static ALLOCATIONS: AtomicU64 = AtomicU64::new(0);

/// Whether the library got a block, and which.
#[repr(C)]
pub struct Grown {
    ok: bool,
    block: NonNull<c_void>,
}

#[unsafe(no_mangle)]
pub extern "C" fn rattle_alloc(size: usize, _align: usize) -> Grown {
    ALLOCATIONS.store(ALLOCATIONS.load(Relaxed) + 1, Relaxed);
    let block = NonNull::new(unsafe { malloc(size) });
    Grown {
        ok: block.is_some(),
        block: block.unwrap_or(NonNull::dangling()),
    }
}

/// # Safety
/// The block came from `rattle_alloc`.
#[unsafe(no_mangle)]
pub unsafe extern "C" fn rattle_dealloc(block: *mut c_void) {
    unsafe { free(block) }
}

/// A run that inserts the keys: the height of the map, and how often it allocated.
fn insert(keys: &[u64]) -> (u64, u64) {
    ALLOCATIONS.store(0, Relaxed);
    let height = unsafe { shared_map_insert(keys.as_ptr(), keys.len()) };
    (height, ALLOCATIONS.load(Relaxed))
}

/// The keys 0 to `len - 1` in an order that looks random.
fn shuffled(len: u64) -> Vec<u64> {
    let mut keys: Vec<u64> = (0..len).collect();
    let mut state = 0x2545_f491_4f6c_dd1d_u64;
    for i in (1..keys.len()).rev() {
        state ^= state << 13;
        state ^= state >> 7;
        state ^= state << 17;
        keys.swap(i, (state % (i as u64 + 1)) as usize);
    }
    keys
}

/// The least of several times of a run, in nanoseconds.
fn least(mut run: impl FnMut() -> u64) -> f64 {
    let times = (0..9).map(|_| {
        let start = used();
        black_box(run());
        (used() - start).as_nanos() as f64
    });
    times.fold(f64::INFINITY, f64::min)
}

fn tree_of(keys: &[u64]) -> BTreeMap<u64, u64> {
    let mut map = BTreeMap::new();
    for key in keys {
        map.insert(*key, *key);
    }
    map
}

fn times_at(len: u64) {
    let keys = shuffled(len);
    // As many calls at each length, and few of those whose time grows with the length.
    let asked: Vec<u64> = keys.iter().copied().cycle().take(1_000_000).collect();
    let few = &keys[..200];
    let walks = (10_000_000 / len) as u32;

    let in_order: Vec<u64> = (0..len).collect();

    let (at, n) = (keys.as_ptr(), keys.len());
    let insert = least(|| unsafe { shared_map_insert(at, n) });
    let insert_in_order = least(|| unsafe { shared_map_insert(in_order.as_ptr(), n) });
    let remove = least(|| unsafe { shared_map_remove(at, n, at, n) });
    let get = least(|| unsafe { shared_map_get(at, n, asked.as_ptr(), asked.len()) });
    let count = least(|| unsafe { shared_map_count_from(at, n, asked.as_ptr(), asked.len()) });
    let walk = least(|| unsafe { shared_map_walk(at, n, walks) });

    let map = tree_of(&keys);
    let tree_insert = least(|| tree_of(&keys).len() as u64);
    let tree_in_order = least(|| tree_of(&in_order).len() as u64);
    let tree_remove = least(|| {
        let mut map = tree_of(&keys);
        for key in &keys {
            map.remove(key);
        }
        map.len() as u64
    });
    let tree_get = least(|| asked.iter().filter_map(|key| map.get(key)).sum());
    let tree_count = least(|| few.iter().map(|key| map.range(key..).count() as u64).sum());
    let tree_walk = least(|| {
        (0..walks)
            .map(|_| black_box(&map).values().sum::<u64>())
            .sum()
    });
    let tree_copy = least(|| {
        for key in few {
            black_box(map.clone()).insert(*key, 0);
        }
        few.len() as u64
    });

    println!(
        "\n{len} keys\n\n| Call | shared map, ns | `BTreeMap`, ns | ratio |\n|---|---|---|---|"
    );
    let row = |call: &str, shared: f64, tree: f64| {
        println!(
            "| {call} | {shared:.0} | {tree:.0} | {:.4} |",
            shared / tree
        );
    };
    let each = len as f64;
    row("`insert`", insert / each, tree_insert / each);
    row(
        "`insert` of keys in their order",
        insert_in_order / each,
        tree_in_order / each,
    );
    row(
        "`insert`, the older map kept",
        insert / each,
        tree_copy / few.len() as f64,
    );
    row(
        "`remove`",
        (remove - insert) / each,
        (tree_remove - tree_insert) / each,
    );
    row(
        "`get`",
        (get - insert) / asked.len() as f64,
        tree_get / asked.len() as f64,
    );
    let walked = f64::from(walks) * each;
    row(
        "a walk, for each entry",
        (walk - insert) / walked,
        tree_walk / walked,
    );
    row(
        "`count_from`",
        (count - insert) / asked.len() as f64,
        tree_count / few.len() as f64,
    );
    println!();
    for (keys, order) in [(&keys, "in no order"), (&in_order, "in their order")] {
        let (height, allocations) = self::insert(keys);
        println!(
            "keys {order}: height {height}, allocations for each insertion {:.1}",
            allocations as f64 / each
        );
    }
}

fn main() {
    for len in [1_000, 10_000, 100_000] {
        times_at(len);
    }
}
