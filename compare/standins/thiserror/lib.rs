//! Stand-in for `thiserror`: an error that prints as `Debug` does. A struct brings its own `Display`.

use proc_macro::{TokenStream, TokenTree};

#[proc_macro_derive(Error, attributes(error))]
pub fn error(item: TokenStream) -> TokenStream {
    let mut words = item.into_iter().filter_map(|token| match token {
        TokenTree::Ident(word) => Some(word.to_string()),
        _ => None,
    });
    let kind = words.by_ref().find(|w| w == "enum" || w == "struct").unwrap();
    let name = words.next().unwrap();
    let display = format!(
        "impl std::fmt::Display for {name} {{
            fn fmt(&self, f: &mut std::fmt::Formatter) -> std::fmt::Result {{ write!(f, \"{{self:?}}\") }}
        }}"
    );
    let display = if kind == "enum" { display } else { String::new() };
    format!("{display} impl std::error::Error for {name} {{}}").parse().unwrap()
}
