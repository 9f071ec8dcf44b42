//! `acknowledge FILE`: answers the exchange in a file with a 997 for
//! each group.

mod exchange;

use acknowledgment::acknowledge;
use std::process::ExitCode;

fn main() -> ExitCode {
    exchange::run("acknowledge", |interchange, numbers| {
        let mut buffer = vec![0; 65_536];
        exchange::print(acknowledge(interchange, &mut buffer, numbers))
    })
}
