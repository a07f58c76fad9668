//! Measures each call beside ordinary Rust that does the same checks and the same work, and prints the tables.
//!
//! The proved code is compiled for x86-64. On another machine the library is a bridge to an emulated program, and times
//! through it mean nothing: then only ordinary Rust is timed. A library of the same code made for that machine is told by
//! `ASDRIFEN_NATIVE=1` when this program is built.

mod calls;
mod inputs;
mod machine;
mod measure;
mod ordinary;
mod report;
#[cfg(test)]
mod tests;

/// The library is code for this machine.
fn is_native() -> bool {
    cfg!(target_arch = "x86_64") || option_env!("ASDRIFEN_NATIVE") == Some("1")
}

fn main() {
    println!("{}\n", machine::description());
    let groups = [
        calls::postings::writing(),
        calls::postings::counting(),
        calls::guards::group(),
        calls::lanes::group(),
        calls::buckets::engines(),
        calls::buckets::stamps(),
    ];
    if is_native() {
        println!(
            "A cell has the time of one call. In brackets: how many times as long Rattle took.\n"
        );
    } else {
        println!("The library is a bridge to an emulated program here. Times through it mean nothing and are not given.");
        println!("Rattle and ordinary Rust gave the same results. The times are those of ordinary Rust alone.\n");
    }
    print!("{}", report::tables(&groups));
}
