//! Shows numbers.

#[cfg(all(feature = "binary", feature = "json"))]
compile_error!("features `binary` and `json` exclude each other");

/// The number as a text.
pub fn encode(number: u8) -> String {
    if cfg!(feature = "binary") {
        format!("{:b}", number)
    } else {
        number.to_string()
    }
}

/// The number in words.
#[cfg(not(feature = "compact"))]
pub fn describe(number: u8) -> String {
    format!("the number {}", encode(number))
}

/// Prints the number.
#[cfg(feature = "trace")]
pub fn trace(number: u8) {
    eprintln!("{}", describe(number));
}
