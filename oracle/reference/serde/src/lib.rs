//! Stands in for `serde`, which the reference derives from and nothing here uses: both derives
//! expand to nothing.
use proc_macro::TokenStream;

#[proc_macro_derive(Serialize)]
pub fn serialize(_: TokenStream) -> TokenStream {
    TokenStream::new()
}

#[proc_macro_derive(Deserialize)]
pub fn deserialize(_: TokenStream) -> TokenStream {
    TokenStream::new()
}
