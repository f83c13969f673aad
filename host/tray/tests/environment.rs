//! With another floating-point environment than the library's each call that computes is refused by the crate, and writes
//! nothing. The environment is set by MXCSR, so that this is for x86-64.
#![cfg(target_arch = "x86_64")]

use std::arch::asm;
use tray::{compose, environment, job, narrow, narrow_bytes};
use tray::{Environment, Error, Inputs, JobNumber, Layer, Memory, Operator, Source, Stack};

/// As a program starts: no trap, nothing flushed, rounding to nearest.
const DEFAULT: u32 = 0x1f80;

fn set(mxcsr: u32) {
    unsafe { asm!("ldmxcsr [{}]", in(reg) &mxcsr, options(nostack, readonly)) }
}

/// What `f` answers under another environment.
fn under<T>(mxcsr: u32, f: impl FnOnce() -> T) -> T {
    set(DEFAULT | mxcsr);
    let answer = f();
    set(DEFAULT);
    answer
}

const WRONG: [(u32, Environment); 5] = [
    (1 << 15, Environment::FlushesSubnormals),
    (1 << 6, Environment::FlushesSubnormals),
    (1 << 13, Environment::RoundsOtherwise),
    (2 << 13, Environment::RoundsOtherwise),
    (3 << 13, Environment::RoundsOtherwise),
];

#[test]
fn each_call_is_refused() {
    let stack = Stack::new(&[Layer::new(Operator::Plus, Source { first: 0, width: 1, height: 1, channels: 4 })]);
    let pixel = [1, 2, 3, 1.0f32.to_bits()];
    let Stack { table, args } = &stack;
    let inputs = Inputs { width: 1, height: 1, channels: 4, dst: &pixel, layers: 1, table, args, samples: &pixel };
    for (mxcsr, environment) in WRONG {
        let (mut out, mut work, mut gray, mut bytes, mut mark) = ([7; 4], [[7; 4]; 2], [7], [7; 4], [0; 2]);
        let [work0, work1] = &mut work;
        let composed = under(mxcsr, || compose(&inputs, &mut out));
        assert_eq!(composed, Err(Error::Environment(environment)));
        assert_eq!(under(mxcsr, || narrow(1, &pixel, &mut gray)), Err(Error::Environment(environment)));
        assert_eq!(under(mxcsr, || narrow_bytes(4, &pixel, &mut bytes)), Err(Error::Environment(environment)));
        let memory = Memory { work0, work1, mark: &mut mark };
        let called = under(mxcsr, || job(&inputs, JobNumber(0), u64::MAX, memory));
        assert_eq!(called, Err(Error::Environment(environment)));
        assert_eq!((out, work, gray, bytes, mark), ([7; 4], [[7; 4]; 2], [7], [7; 4], [0; 2]), "something was written");
    }
    let mut out = [0; 4];
    assert_eq!(compose(&inputs, &mut out), Ok(()));
    assert_eq!(out, [2, 4, 6, 1.0f32.to_bits()]);
}

#[test]
fn one_line_each() {
    assert_eq!(environment(), Ok(()));
    for (mxcsr, wrong) in WRONG {
        assert_eq!(under(mxcsr, environment), Err(wrong));
        let said = Error::<tray::Fault>::Environment(wrong).to_string();
        assert!(said.starts_with("this thread's floating-point environment ") && !said.contains('\n'), "{said}");
    }
}
