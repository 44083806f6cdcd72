//! Stands in for `thiserror`: an error is shown as its `Debug` text, since no message of these errors is compared.

use proc_macro::{TokenStream, TokenTree};

#[proc_macro_derive(Error, attributes(error))]
pub fn error(item: TokenStream) -> TokenStream {
    let mut tokens = item.into_iter().skip_while(|token| !is_enum(token));
    let name = tokens.nth(1).expect("an enum has a name");
    format!(
        "impl ::std::fmt::Display for {name} {{
            fn fmt(&self, formatter: &mut ::std::fmt::Formatter<'_>) -> ::std::fmt::Result {{
                ::std::fmt::Debug::fmt(self, formatter)
            }}
        }}
        impl ::std::error::Error for {name} {{}}"
    )
    .parse()
    .expect("the text is Rust")
}

fn is_enum(token: &TokenTree) -> bool {
    matches!(token, TokenTree::Ident(word) if word.to_string() == "enum")
}
