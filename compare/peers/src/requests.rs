//! Counts the requests for memory that a filled map has made.
//!
//! `requests N ..` prints for each size N and each map a line `map n requests bytes`: how often a
//! map that was filled one pair at a time has asked for memory, and how many bytes its blocks have.

// The modules have more than is called here.
#![allow(dead_code)]

mod hasher;
mod order;
mod peer;
mod small;
mod twin;

use hasher::Fold;
use peer::Map;
use std::alloc::{GlobalAlloc, Layout, System};
use std::process::ExitCode;
use std::sync::atomic::{AtomicU64, Ordering};
use twin::Twin;

/// Counts what is asked of the system's allocator, and passes it on.
struct Counting;

static REQUESTS: AtomicU64 = AtomicU64::new(0);
static BYTES: AtomicU64 = AtomicU64::new(0);

/// Takes note of a request.
fn request(bytes: usize) {
    REQUESTS.fetch_add(1, Ordering::Relaxed);
    BYTES.fetch_add(bytes as u64, Ordering::Relaxed);
}

/// Takes note of a block that is given back.
fn give_back(bytes: usize) {
    BYTES.fetch_sub(bytes as u64, Ordering::Relaxed);
}

// SAFETY: each call is passed on as it came.
unsafe impl GlobalAlloc for Counting {
    unsafe fn alloc(&self, layout: Layout) -> *mut u8 {
        request(layout.size());
        System.alloc(layout)
    }

    unsafe fn alloc_zeroed(&self, layout: Layout) -> *mut u8 {
        request(layout.size());
        System.alloc_zeroed(layout)
    }

    unsafe fn dealloc(&self, block: *mut u8, layout: Layout) {
        give_back(layout.size());
        System.dealloc(block, layout);
    }

    unsafe fn realloc(&self, block: *mut u8, layout: Layout, bytes: usize) -> *mut u8 {
        give_back(layout.size());
        request(bytes);
        System.realloc(block, layout, bytes)
    }
}

#[global_allocator]
static ALLOCATOR: Counting = Counting;

/// Returns the counts so far.
fn counts() -> (u64, u64) {
    (
        REQUESTS.load(Ordering::Relaxed),
        BYTES.load(Ordering::Relaxed),
    )
}

/// Prints the counts of a map of `n` pairs.
fn show<M: Map>(name: &str, n: u64) {
    let before = counts();
    let map: M = small::fill(0, n);
    let after = counts();
    drop(map);
    println!("{name} {n} {} {}", after.0 - before.0, after.1 - before.1);
}

fn main() -> ExitCode {
    let sizes: Vec<u64> = std::env::args().flat_map(|word| word.parse()).collect();
    for n in &sizes {
        show::<linked_hash_map::LinkedHashMap<u64, u64, Fold>>("original", *n);
        show::<hashlink::LinkedHashMap<u64, u64, Fold>>("hashlink", *n);
        show::<indexmap::IndexMap<u64, u64, Fold>>("indexmap", *n);
        show::<Twin>("twin", *n);
    }
    if sizes.is_empty() {
        eprintln!("usage: requests N ..");
        return ExitCode::from(2);
    }
    ExitCode::SUCCESS
}
