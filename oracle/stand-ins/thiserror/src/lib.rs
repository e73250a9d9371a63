//! Stands in for the crate `thiserror`: the derive, with the `Debug` form in place of each message.

use proc_macro::{TokenStream, TokenTree};

/// Makes the enum an error; what `#[error(...)]` says is not looked at.
#[proc_macro_derive(Error, attributes(error))]
pub fn derive_error(item: TokenStream) -> TokenStream {
    let name = enum_name(item);
    format!(
        "impl ::std::fmt::Display for {name} {{
            fn fmt(&self, formatter: &mut ::std::fmt::Formatter<'_>) -> ::std::fmt::Result {{
                ::std::fmt::Debug::fmt(self, formatter)
            }}
        }}
        impl ::std::error::Error for {name} {{}}"
    )
    .parse()
    .expect("the text above is two items")
}

fn enum_name(item: TokenStream) -> String {
    let mut tokens = item.into_iter();
    let is_enum =
        |token: &TokenTree| matches!(token, TokenTree::Ident(word) if word.to_string() == "enum");
    tokens.find(is_enum).expect("only an enum is derived here");
    tokens.next().expect("an enum has a name").to_string()
}
