//! `print` appends a line for each enum of a source. The page uses the lines to select an enum.
//! Called for the program `enums`.

use logos_build::logos_rust_file::{enums_in, path_of};
use rattle_std::alloc::{AllocError, Global};
use rattle_std::io::Write;
use rattle_std::vec::Vec;

/// Appends a line to `out` for each enum of `source` that derives `Logos`: the enum's span in bytes
/// of the source, and its path.
///
/// Appends nothing if the source cannot be read. `logos_show` reports the reason.
///
/// # Errors
///
/// Returns `AllocError` if memory runs out. Some lines may have been appended then.
pub fn print(source: &[u8], out: &mut Vec<u8>) -> Result<(), AllocError> {
    let Ok(text) = str::from_utf8(source) else {
        return Ok(());
    };
    let Ok(found) = enums_in(Global, text) else {
        return Ok(());
    };
    for one in found.iter().filter(|one| one.derives) {
        let path = path_of(Global, text, *one).map_err(|_| AllocError)?;
        let line = writeln!(out, "{}..{} {}", one.span.from, one.span.to, path.as_str());
        line.map_err(|_| AllocError)?;
    }
    Ok(())
}
