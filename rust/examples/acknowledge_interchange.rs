//! `acknowledge_interchange FILE`: answers the envelope of the exchange in a
//! file with its TA1.

mod exchange;

use acknowledgment::acknowledge_interchange;
use std::process::ExitCode;

fn main() -> ExitCode {
    exchange::run("acknowledge_interchange", |interchange, numbers| {
        let mut buffer = [0; 154];
        exchange::print(acknowledge_interchange(interchange, &mut buffer, numbers))
    })
}
