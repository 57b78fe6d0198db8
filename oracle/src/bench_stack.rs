//! The stack that each call needs, on lent tables and from C, with its bound: `bench_stack`. It exits with 1 where one needs more.

#[allow(dead_code)]
#[path = "bench/c_words.rs"]
mod c_words;
#[allow(dead_code)]
#[path = "compare/exports.rs"]
mod exports;
#[path = "h4/exports.rs"]
mod h4;
#[path = "bench/painted.rs"]
mod painted;
#[allow(dead_code)]
#[path = "bench/setup.rs"]
mod setup;
#[path = "bench/stack.rs"]
mod stack;
#[path = "bench/stack_c.rs"]
mod stack_c;
#[path = "bench/stack_h4.rs"]
mod stack_h4;
#[allow(dead_code)]
#[path = "compare/state.rs"]
mod state;
#[allow(dead_code)]
#[path = "bench/states.rs"]
mod states;

use std::process::ExitCode;

fn main() -> ExitCode {
    let mut rows = painted::Rows::new();
    stack::rows(&mut rows, &mut setup::Lent::new());
    stack_c::rows(&mut rows);
    stack_h4::rows(&mut rows);
    if rows.within() { ExitCode::SUCCESS } else { ExitCode::FAILURE }
}
