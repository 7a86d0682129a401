//! Stand-in for serde's derives: an empty `Serialize`, and a `Deserialize` that compiles and is never called.

use proc_macro::{TokenStream, TokenTree};

#[proc_macro_derive(Serialize, attributes(serde))]
pub fn serialize(item: TokenStream) -> TokenStream {
    format!("impl ::serde::Serialize for {} {{}}", type_name(item))
        .parse()
        .unwrap()
}

#[proc_macro_derive(Deserialize, attributes(serde))]
pub fn deserialize(item: TokenStream) -> TokenStream {
    format!(
        "impl<'de> ::serde::Deserialize<'de> for {} {{
            fn deserialize<D>(_: D) -> ::core::result::Result<Self, D::Error>
            where
                D: ::serde::Deserializer<'de>,
            {{
                unreachable!()
            }}
        }}",
        type_name(item)
    )
    .parse()
    .unwrap()
}

/// The word after `struct` or `enum`; the types that derive here have no parameters.
fn type_name(item: TokenStream) -> String {
    let mut follows = false;
    for token in item {
        if let TokenTree::Ident(word) = token {
            let word = word.to_string();
            if follows {
                return word;
            }
            follows = word == "struct" || word == "enum";
        }
    }
    panic!("a derive stands on a struct or an enum");
}
