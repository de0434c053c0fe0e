//! How much stack each function takes: it is called on a thread whose stack is painted beforehand,
//! and the paint that is gone below the caller's frame is counted, less what an empty call takes.
//! Frames of the bindings are included; a part of a frame that nothing writes is not. With the word
//! `smallest` it also runs `fault_list` on larger and larger stacks, each in a process of its own,
//! until it fits.

use std::alloc::{Layout, alloc_zeroed};
use std::env;
use std::ffi::c_void;
use std::hint::black_box;
use std::process::Command;
use std::ptr::null_mut;
use std::slice::from_raw_parts_mut;

use callboard::{Choice, PolicyInput, Profile, Refusal, Row, Tally, TotalShards};

const ROOM: usize = 1 << 20;
const PAGE: usize = 4096;
const PAINT: u8 = 0xa5;

/// The widest layout.
const WIDTH: u64 = 255;
/// A row without a shard, and one of shard 0.
const EMPTY: Row = [0; 4];
const FIRST: Row = [1, 0, 0, 0];

/// `pthread_attr_t` of glibc on x86-64.
#[repr(C, align(8))]
struct Attributes([u8; 56]);

type Start = extern "C" fn(*mut c_void) -> *mut c_void;

unsafe extern "C" {
    fn pthread_attr_init(attributes: *mut Attributes) -> i32;
    fn pthread_attr_setstack(attributes: *mut Attributes, low: *mut c_void, size: usize) -> i32;
    fn pthread_create(
        thread: *mut usize,
        attributes: *const Attributes,
        start: Start,
        argument: *mut c_void,
    ) -> i32;
    fn pthread_join(thread: usize, answer: *mut *mut c_void) -> i32;
}

/// A call, the stack that it is made on, and how much of it was changed below the caller's frame.
struct Measured<'a> {
    call: &'a mut dyn FnMut(),
    low: *const u8,
    used: usize,
}

extern "C" fn start(argument: *mut c_void) -> *mut c_void {
    // SAFETY: `on_stack` hands over what it keeps until the thread has ended.
    let measured = unsafe { &mut *argument.cast::<Measured>() };
    let frame = black_box(0u8);
    (measured.call)();
    let mut at = measured.low;
    // SAFETY: from the low end up to this frame all is the thread's stack.
    while at < &raw const frame && unsafe { at.read_volatile() } == PAINT {
        at = at.wrapping_add(1);
    }
    measured.used = (&raw const frame).addr() - at.addr();
    null_mut()
}

/// Runs the call on a thread of its own with this stack, and counts what it changes.
fn on_stack(stack: &mut [u8], call: &mut dyn FnMut()) -> usize {
    stack.fill(PAINT);
    let low = stack.as_mut_ptr();
    let mut measured = Measured { call, low, used: 0 };
    let mut attributes = Attributes([0; 56]);
    let mut thread = 0;
    // SAFETY: stack and call outlive the thread, which is joined here.
    unsafe {
        assert_eq!(pthread_attr_init(&mut attributes), 0);
        assert_eq!(
            pthread_attr_setstack(&mut attributes, low.cast(), stack.len()),
            0
        );
        let argument = (&raw mut measured).cast();
        assert_eq!(pthread_create(&mut thread, &attributes, start, argument), 0);
        assert_eq!(pthread_join(thread, null_mut()), 0);
    }
    measured.used
}

/// A stack of so many bytes, which lasts until the process ends.
fn stack(bytes: usize) -> &'static mut [u8] {
    let layout = Layout::from_size_align(bytes, PAGE).unwrap();
    // SAFETY: the memory is of that layout.
    unsafe { from_raw_parts_mut(alloc_zeroed(layout), bytes) }
}

/// How many bytes of a painted stack the call changes.
fn touched(call: &mut dyn FnMut()) -> usize {
    on_stack(stack(ROOM), call)
}

fn print(name: &str, empty: usize, mut call: impl FnMut()) {
    println!("{name:50} {:8}", touched(&mut call).saturating_sub(empty));
}

/// Every set of f of n replicas, in rising order.
fn sets(n: u64, f: u32) -> Vec<u64> {
    (0..1 << n)
        .filter(|set: &u64| set.count_ones() == f)
        .collect()
}

fn profile_text(n: u64) -> Vec<u8> {
    let probs = vec!["0.5"; n as usize].join(",");
    format!("domains:0; probs:{probs}@0.2").into_bytes()
}

fn profile(n: u64) -> Profile {
    callboard::parse_profile(n, &profile_text(n)).unwrap()
}

fn main() {
    if let [_, word, bytes] = env::args().collect::<Vec<_>>().as_slice()
        && word == "within"
    {
        within(bytes.parse().unwrap());
        return;
    }
    let empty = touched(&mut || {});
    println!("bytes of stack; an empty call, which is not counted, takes {empty}");
    fault_lists(empty);
    texts(empty);
    for n in [5, 16] {
        layouts(empty, n);
        policy(empty, n);
        replies(empty, n);
    }
    if env::args().any(|word| word == "smallest") {
        smallest();
    }
}

fn fault_lists(empty: usize) {
    for n in [1, 3, 5, 8, 9, 16] {
        let mut words = vec![0; 12870];
        let f = (n - 1) / 2;
        print(&format!("fault_list n {n}"), empty, || {
            let given = Profile::default();
            callboard::fault_list(n, f, black_box(&given), &mut words).unwrap();
        });
        let given = profile(n);
        print(&format!("fault_list n {n}, probabilities"), empty, || {
            let answer = callboard::fault_list(n, f, black_box(&given), &mut words);
            assert!(answer.is_ok() || n < 3, "{answer:?}");
        });
    }
    print("fault_list n 17, refused with 1", empty, || {
        let answer = callboard::fault_list(17, 1, black_box(&Profile::default()), &mut []);
        assert_eq!(answer, Err(Refusal(1)));
    });
}

fn texts(empty: usize) {
    let (text, given) = (profile_text(16), profile(16));
    print("parse_profile n 16", empty, || {
        black_box(callboard::parse_profile(16, black_box(&text)).unwrap());
    });
    print("unreliability n 16", empty, || {
        black_box(callboard::unreliability(16, 3, black_box(&given), 0.5).unwrap());
    });
    let mut rows = [EMPTY; 16];
    print("parse_init_assignment n 16", empty, || {
        callboard::parse_init_assignment(16, 4, 240, black_box(b"0:1,2,3/7:4,5"), &mut rows)
            .unwrap();
    });
}

fn layouts(empty: usize, n: u64) {
    let (d, f) = (n, (n as u32 - 1) / 3);
    let total = TotalShards::AtMost(WIDTH);
    let faults = sets(n, f);
    let everyone = (1 << n) - 1;
    let loads = vec![d; n as usize];
    let mut rows = vec![EMPTY; n as usize];
    print(&format!("layout_rows n {n}"), empty, || {
        callboard::layout_rows(n, d, total, &loads, &mut rows).unwrap();
    });
    print(&format!("layout_commits n {n}"), empty, || {
        black_box(
            callboard::layout_commits(n, 1, d, total, everyone, &loads, &faults, &mut rows)
                .unwrap(),
        );
    });
    let held = rows.clone();
    print(&format!("covers n {n}"), empty, || {
        black_box(callboard::covers(n, d, WIDTH, everyone, &held, &faults).unwrap());
    });
    print(&format!("rows_united n {n}"), empty, || {
        black_box(callboard::rows_united(n, d, WIDTH, everyone, &held, &faults).unwrap());
    });
    print(&format!("survived_by n {n}"), empty, || {
        black_box(callboard::survived_by(n, everyone, &faults).unwrap());
    });
    print(&format!("full_copies n {n}"), empty, || {
        black_box(callboard::full_copies(n, d, total, &mut rows).unwrap());
    });
    let models = vec![[1.0, 1.0, 0.5, 0.0]; n as usize];
    let inflight = vec![0; n as usize];
    // A plan of at most 64 data shards, and one of more.
    for d in [d, WIDTH] {
        print(&format!("pick_assignment n {n} d {d}"), empty, || {
            let plan = callboard::pick_assignment(
                n,
                0,
                n / 2 + 1,
                d,
                total,
                1 << 20,
                0.0,
                everyone,
                &models,
                &inflight,
                &faults,
                &mut rows,
            );
            assert!(plan.unwrap().is_some());
        });
    }
    let mut left_out = vec![EMPTY; n as usize];
    print(&format!("gossip_targets_excl n {n}"), empty, || {
        black_box(
            callboard::gossip_targets_excl(
                n,
                0,
                1,
                d,
                WIDTH,
                FIRST,
                &held,
                everyone,
                &mut left_out,
            )
            .unwrap(),
        );
    });
}

fn policy(empty: usize, n: u64) {
    let majority = n / 2 + 1;
    let d = majority;
    let models = vec![[1.0, 1.0, 0.5]; n as usize];
    let (inflight, initial) = (vec![0; n as usize], vec![FIRST; n as usize]);
    let table = vec![FIRST; (n * d) as usize];
    let mut rows = vec![EMPTY; n as usize];
    let input = || PolicyInput {
        n,
        f: 1,
        own: 0,
        d,
        w: WIDTH,
        majority,
        size: 1 << 20,
        adaptive: true,
        balanced: true,
        models: &models,
        inflight: &inflight,
        alive: (1 << n) - 1,
        init: &initial,
        table: &table,
    };
    print(&format!("min_shards_per_replica n {n}"), empty, || {
        black_box(callboard::min_shards_per_replica(n, 1, d, majority, 1).unwrap());
    });
    print(&format!("pick_assignment_policy n {n}"), empty, || {
        let choice = callboard::pick_assignment_policy(input()).unwrap();
        assert!(!matches!(choice, Choice::Initial));
    });
    print(&format!("policy_rows n {n}"), empty, || {
        black_box(callboard::policy_rows(input(), &mut rows).unwrap());
    });
}

fn replies(empty: usize, n: u64) {
    let faults = sets(n, 1);
    print(&format!("tally_open n {n}"), empty, || {
        black_box(Tally::open(n, 2, 2, WIDTH, 1, 0, 42).unwrap());
    });
    let mut tally = Tally::open(n, 2, 2, WIDTH, 1, 0, 42).unwrap();
    print(&format!("accept_reply n {n}"), empty, || {
        for source in 0..n {
            black_box(
                tally
                    .accept_reply(source, 1, 0, 42, [1 << source, 0, 0, 0], &faults)
                    .unwrap(),
            );
        }
    });
}

/// A fault list on a stack of so many bytes.
fn within(bytes: usize) {
    let mut words = vec![0; 12870];
    let stack = stack(bytes);
    let call = &mut || {
        let answer = callboard::fault_list(16, 7, &Profile::default(), &mut words);
        assert_eq!(answer, Ok(11440));
    };
    on_stack(stack, call);
    assert_eq!(stack[0], PAINT, "the lowest byte was written");
}

fn smallest() {
    let name = env::current_exe().unwrap();
    let runs = |bytes: usize| {
        let status = Command::new(&name)
            .args(["within", &bytes.to_string()])
            .output();
        status.unwrap().status.success()
    };
    let found = (4..).map(|pages| pages * PAGE).find(|&bytes| runs(bytes));
    println!(
        "fault_list n 16 ran on a stack of {} bytes, the thread's own included",
        found.unwrap()
    );
}
