// What both programs behind the bench's lines are made of, all but the tween module.

include!("original.rs");

mod bench;

fn main() -> std::process::ExitCode {
    bench::run()
}
