//! Prints a number.

#[cfg(feature = "codec")]
fn text() -> String {
    codec::encode(7)
}

#[cfg(not(feature = "codec"))]
fn text() -> String {
    7.to_string()
}

fn main() {
    if cfg!(feature = "color") {
        println!("\x1b[1m{}\x1b[0m", text());
    } else {
        println!("{}", text());
    }
}
