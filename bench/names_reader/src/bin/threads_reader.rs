//! What one would write by hand to see which names take the most on which thread: a trace on standard input, read by serde into typed
//! events, the lengths of its spans added by thread and name. It knows how begins and ends go together, but no self times, and counts
//! all other events by name alone.
use serde::Deserialize;
use std::borrow::Cow;
use std::collections::HashMap;
use std::io::Read;

const SHOWN: usize = 30;

#[derive(Deserialize)]
struct Trace<'a> {
    #[serde(borrow, rename = "traceEvents")]
    events: Vec<Event<'a>>,
}

#[derive(Deserialize)]
struct Event<'a> {
    #[serde(borrow)]
    ph: Cow<'a, str>,
    #[serde(borrow, default)]
    name: Cow<'a, str>,
    #[serde(default)]
    pid: i64,
    #[serde(default)]
    tid: i64,
    #[serde(default)]
    ts: i64,
    dur: Option<i64>,
}

#[derive(Clone, Copy, Default)]
struct Sums {
    count: u64,
    total: i64,
}

type Rows<'a> = HashMap<(i64, i64, &'a str), Sums>;

fn add<'a>(rows: &mut Rows<'a>, event: &Event, name: &'a str, length: i64) {
    let sums = rows.entry((event.pid, event.tid, name)).or_default();
    sums.count += 1;
    sums.total += length;
}

fn main() {
    let mut text = Vec::new();
    std::io::stdin().read_to_end(&mut text).expect("the trace can be read");
    let trace: Trace = serde_json::from_slice(&text).expect("it is a trace");
    let mut rows = Rows::new();
    let mut begun: HashMap<(i64, i64), Vec<&Event>> = HashMap::new();
    for event in &trace.events {
        match event.ph.as_ref() {
            "X" => add(&mut rows, event, &event.name, event.dur.unwrap_or(0)),
            "B" => begun.entry((event.pid, event.tid)).or_default().push(event),
            "E" => {
                if let Some(begin) = begun.entry((event.pid, event.tid)).or_default().pop() {
                    add(&mut rows, event, &begin.name, event.ts - begin.ts);
                }
            }
            _ => add(&mut rows, event, &event.name, 0),
        }
    }
    let mut rows: Vec<_> = rows.into_iter().collect();
    rows.sort_by_key(|(_, sums)| std::cmp::Reverse(sums.total));
    for ((pid, tid, name), Sums { count, total }) in rows.into_iter().take(SHOWN) {
        println!("{total:16} {count:8} {pid} {tid} {name}");
    }
}
