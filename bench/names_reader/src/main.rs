//! What one would write by hand to see which names take the most over a build: each file read by serde, the lengths of its complete
//! events added by name, in one thread for each processor. It knows no nesting, so there are no self times, and no other events.
//!
//! usage: names_reader FILE...
use serde::Deserialize;
use std::borrow::Cow;
use std::collections::HashMap;
use std::sync::atomic::{AtomicUsize, Ordering};
use std::{env, fs, thread};

const SHOWN: usize = 30;

#[derive(Deserialize)]
struct Trace<'a> {
    #[serde(borrow, rename = "traceEvents")]
    events: Vec<Event<'a>>,
}

#[derive(Deserialize)]
struct Event<'a> {
    ph: Cow<'a, str>,
    #[serde(borrow)]
    name: Cow<'a, str>,
    dur: Option<u64>,
}

#[derive(Clone, Copy, Default)]
struct Sums {
    count: u64,
    total: u64,
}

type ByName = HashMap<String, Sums>;

fn add(sums: &mut ByName, name: &str, more: Sums) {
    match sums.get_mut(name) {
        Some(sums) => {
            sums.count += more.count;
            sums.total += more.total;
        }
        None => {
            sums.insert(name.to_owned(), more);
        }
    }
}

fn add_file(sums: &mut ByName, path: &str) {
    let text = fs::read(path).expect("the file can be read");
    let trace: Trace = serde_json::from_slice(&text).expect("the file is a trace");
    for event in &trace.events {
        if let ("X", Some(total)) = (event.ph.as_ref(), event.dur) {
            add(sums, &event.name, Sums { count: 1, total });
        }
    }
}

fn main() {
    let paths: Vec<String> = env::args().skip(1).collect();
    let next = AtomicUsize::new(0);
    let work = || {
        let mut sums = ByName::new();
        while let Some(path) = paths.get(next.fetch_add(1, Ordering::Relaxed)) {
            add_file(&mut sums, path);
        }
        sums
    };
    let threads = thread::available_parallelism().map_or(1, usize::from);
    let mut all = ByName::new();
    thread::scope(|scope| {
        let jobs: Vec<_> = (0..threads).map(|_| scope.spawn(work)).collect();
        for job in jobs {
            for (name, sums) in job.join().expect("the job ends") {
                add(&mut all, &name, sums);
            }
        }
    });
    let mut rows: Vec<_> = all.into_iter().collect();
    rows.sort_by_key(|(_, sums)| std::cmp::Reverse(sums.total));
    for (name, Sums { count, total }) in rows.into_iter().take(SHOWN) {
        println!("{total:16} {count:8} {name}");
    }
}
