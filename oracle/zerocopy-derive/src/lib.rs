//! Stand-in derives: they trust the two plain structs of the queue and check no layout.
use proc_macro::{TokenStream, TokenTree};

/// Finds the struct's name by hand, since no parser crate can be had offline.
fn name_of(item: TokenStream) -> String {
    let mut words = item.into_iter().skip_while(|t| !is_struct(t)).skip(1);
    match words.next() {
        Some(TokenTree::Ident(name)) => name.to_string(),
        _ => panic!("the stand-in derives only know structs"),
    }
}

fn is_struct(token: &TokenTree) -> bool {
    matches!(token, TokenTree::Ident(word) if word.to_string() == "struct")
}

fn implement(item: TokenStream, traits: &[&str]) -> TokenStream {
    let name = name_of(item);
    let lines = traits
        .iter()
        .map(|t| format!("unsafe impl ::zerocopy::{t} for {name} {{}}\n"));
    lines.collect::<String>().parse().expect("a plain impl")
}

/// Zero bytes are among any bytes, so this one derive gives both traits.
#[proc_macro_derive(FromBytes)]
pub fn from_bytes(item: TokenStream) -> TokenStream {
    implement(item, &["FromZeros", "FromBytes"])
}

#[proc_macro_derive(IntoBytes)]
pub fn into_bytes(item: TokenStream) -> TokenStream {
    implement(item, &["IntoBytes"])
}

#[proc_macro_derive(Immutable)]
pub fn immutable(item: TokenStream) -> TokenStream {
    implement(item, &["Immutable"])
}

#[proc_macro_derive(KnownLayout)]
pub fn known_layout(item: TokenStream) -> TokenStream {
    implement(item, &["KnownLayout"])
}
