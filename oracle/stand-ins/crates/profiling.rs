//! The attribute that the Rust puts on `solve_generic`. It leaves its function as it is.

use proc_macro::TokenStream;

#[proc_macro_attribute]
pub fn function(_: TokenStream, function: TokenStream) -> TokenStream {
    function
}
