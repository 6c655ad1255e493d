//! A derive that does nothing, under a name that sources use.

extern crate proc_macro;

use proc_macro::TokenStream;

#[proc_macro_derive(Serialize)]
pub fn serialize(_: TokenStream) -> TokenStream {
    TokenStream::new()
}
