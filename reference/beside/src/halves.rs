//! The work of a run in two threads.

use std::thread;

use crate::asked::Asked;

/// The stack that the main call is said to fit in (docs/ARCHITECTURE.md, "The stack"), half of a Rust thread's; every call
/// of both sides has to pass in it.
const STACK: usize = 1 << 20;

/// All seeds of a run, every other one in each of two threads with a small stack; what each of the two holds at the end.
pub fn in_two<T: Default + Send>(asked: Asked, each: impl Fn(u64, &mut T) + Sync) -> [T; 2] {
    let each = &each;
    let Asked { count, seed, .. } = asked;
    let half = move |first: u64| {
        let mut held = T::default();
        for seed in (seed + first..seed + count).step_by(2) {
            each(seed, &mut held);
        }
        held
    };
    thread::scope(|scope| {
        let halves = [0, 1].map(|first| {
            let builder = thread::Builder::new().stack_size(STACK);
            builder
                .spawn_scoped(scope, move || half(first))
                .expect("a thread can be started")
        });
        halves.map(|half| half.join().expect("no comparison panics"))
    })
}
