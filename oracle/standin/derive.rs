//! Derives that expand to nothing, in place of those of serde and thiserror.

extern crate proc_macro;
use proc_macro::TokenStream;

#[proc_macro_derive(Serialize, attributes(serde))]
pub fn serialize(_: TokenStream) -> TokenStream {
    TokenStream::new()
}

#[proc_macro_derive(Deserialize, attributes(serde))]
pub fn deserialize(_: TokenStream) -> TokenStream {
    TokenStream::new()
}

#[proc_macro_derive(Error, attributes(error, source, from))]
pub fn error(_: TokenStream) -> TokenStream {
    TokenStream::new()
}
