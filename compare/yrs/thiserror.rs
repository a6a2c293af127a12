// Stand-in for the crate thiserror: its derive for yrs's Error, made without syn. Display says what Debug says; `#[from]` gives From.
extern crate proc_macro;
use proc_macro::{Delimiter, TokenStream, TokenTree};

// The type in a variant's brackets, if it stands behind #[from].
fn from(tokens: TokenStream) -> Option<String> {
    let all: Vec<TokenTree> = tokens.into_iter().collect();
    match all.as_slice() {
        [TokenTree::Punct(_), TokenTree::Group(g), rest @ ..] if g.stream().to_string() == "from" => Some(rest.iter().cloned().collect::<TokenStream>().to_string()),
        _ => None,
    }
}

#[proc_macro_derive(Error, attributes(error, from))]
pub fn derive(input: TokenStream) -> TokenStream {
    let all: Vec<TokenTree> = input.into_iter().collect();
    let at = all.iter().position(|t| t.to_string() == "enum").unwrap();
    let name = all[at + 1].to_string();
    let mut out = format!(
        "impl std::fmt::Display for {name} {{ fn fmt(&self, f: &mut std::fmt::Formatter<'_>) -> std::fmt::Result {{ write!(f, \"{{:?}}\", self) }} }} impl std::error::Error for {name} {{}} "
    );
    let TokenTree::Group(body) = &all[at + 2] else { panic!() };
    let mut variant = String::new();
    for t in body.stream() {
        match t {
            TokenTree::Ident(i) => variant = i.to_string(),
            TokenTree::Group(g) if g.delimiter() == Delimiter::Parenthesis => {
                if let Some(t) = from(g.stream()) {
                    out += &format!("impl From<{t}> for {name} {{ fn from(e: {t}) -> Self {{ {name}::{variant}(e) }} }} ")
                }
            }
            _ => {}
        }
    }
    out.parse().unwrap()
}
