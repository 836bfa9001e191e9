//! Stands in for the crate `thiserror`, of which the original uses the derive `Error` on one enum.
//! The messages that stand in its attributes are not compared, so the error prints as its `Debug`.

use proc_macro::{TokenStream, TokenTree};

/// Makes an enum that has `Debug` an error.
#[proc_macro_derive(Error, attributes(error))]
pub fn derive_error(item: TokenStream) -> TokenStream {
    let name = enum_name(item).expect("the derive stands on an enum");
    let text = format!(
        "impl std::fmt::Display for {name} {{
            fn fmt(&self, out: &mut std::fmt::Formatter<'_>) -> std::fmt::Result {{
                std::fmt::Debug::fmt(self, out)
            }}
        }}
        impl std::error::Error for {name} {{}}"
    );
    text.parse().expect("the two impls are Rust")
}

/// The word after `enum`.
fn enum_name(item: TokenStream) -> Option<String> {
    let mut tokens = item.into_iter();
    tokens.find(|token| matches!(token, TokenTree::Ident(word) if word.to_string() == "enum"))?;
    tokens.next().map(|name| name.to_string())
}
