//! Stands in for the crate `serde_derive`: derives that satisfy the traits and never run.
//!
//! They read a type's name and its plain parameters (`<'a>`, `<D>`), which is all that the two
//! given files use. See the stand-in for `serde` for why no answer can depend on them.

use proc_macro::{TokenStream, TokenTree};

/// The derived type's name, and its parameters without the angle brackets.
fn name_and_parameters(item: TokenStream) -> (String, String) {
    let mut tokens = item.into_iter();
    let is_item = |token: &TokenTree| matches!(token.to_string().as_str(), "struct" | "enum");
    tokens.by_ref().find(is_item).expect("a struct or an enum");
    let name = tokens.next().expect("a name").to_string();
    let mut parameters = String::new();
    if matches!(tokens.next(), Some(token) if token.to_string() == "<") {
        for token in tokens.by_ref().take_while(|token| token.to_string() != ">") {
            parameters.push_str(&token.to_string());
        }
    }
    (name, parameters)
}

#[proc_macro_derive(Serialize)]
pub fn serialize(item: TokenStream) -> TokenStream {
    let (name, parameters) = name_and_parameters(item);
    format!(
        "impl<{parameters}> ::serde::Serialize for {name}<{parameters}> {{
            fn serialize<S: ::serde::Serializer>(&self, _: S) -> Result<S::Ok, S::Error> {{
                unreachable!(\"snapshots are outside the board that is compared\")
            }}
        }}"
    )
    .parse()
    .expect("an impl")
}

#[proc_macro_derive(Deserialize)]
pub fn deserialize(item: TokenStream) -> TokenStream {
    let (name, parameters) = name_and_parameters(item);
    format!(
        "impl<'de, {parameters}> ::serde::Deserialize<'de> for {name}<{parameters}> {{
            fn deserialize<Z: ::serde::Deserializer<'de>>(_: Z) -> Result<Self, Z::Error> {{
                unreachable!(\"snapshots are outside the board that is compared\")
            }}
        }}"
    )
    .parse()
    .expect("an impl")
}
