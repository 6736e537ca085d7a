//! A stand-in for the crate of the same name: the derive alone, without message texts.

use proc_macro::{TokenStream, TokenTree};

/// Shows the error by its Debug form; the oracle never prints a message.
#[proc_macro_derive(Error, attributes(error, source))]
pub fn derive_error(item: TokenStream) -> TokenStream {
    let name = type_name(item).expect("derive(Error) needs an enum or a struct");
    let code = format!(
        "impl ::core::fmt::Display for {name} {{
            fn fmt(&self, out: &mut ::core::fmt::Formatter<'_>) -> ::core::fmt::Result {{
                ::core::fmt::Debug::fmt(self, out)
            }}
        }}
        impl ::core::error::Error for {name} {{}}"
    );
    code.parse().expect("the generated code is well formed")
}

/// The identifier that follows the first `enum` or `struct`.
fn type_name(item: TokenStream) -> Option<String> {
    let mut tokens = item.into_iter();
    tokens.find(opens_type)?;
    match tokens.next()? {
        TokenTree::Ident(name) => Some(name.to_string()),
        _ => None,
    }
}

fn opens_type(token: &TokenTree) -> bool {
    matches!(token, TokenTree::Ident(word) if ["enum", "struct"].contains(&&*word.to_string()))
}
