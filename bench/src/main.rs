//! What writing, building, opening, running, serving a desk and judging recordings cost in the proved library, beside plain Rust that does the same job. `bench/run` builds and runs it.
mod building;
mod clock;
mod judging;
mod plain_desk;
mod plain_recordings;
mod plain_writer;
mod running;
mod serving;
mod stack;
#[path = "../../examples/tefuji.rs"]
mod tefuji;
mod writing;

use clock::Work;

fn main() {
    let is_smoke = std::env::args().nth(1).as_deref() == Some("smoke");
    let work = if is_smoke { Work::smoke() } else { Work::full() };
    writing::report(&work);
    building::report(&work);
    running::report(&work);
    serving::report(&work);
    judging::report(&work);
    stack::report();
}
