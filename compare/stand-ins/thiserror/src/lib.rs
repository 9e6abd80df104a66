//! `derive(Error)`: `Display` by `Debug`, and `source` by the field marked `#[source]`. Texts of errors are not compared.
use proc_macro::{TokenStream, TokenTree};

#[proc_macro_derive(Error, attributes(error, source))]
pub fn error(item: TokenStream) -> TokenStream {
    let mut name = None;
    let mut source = None;
    let mut tokens = item.into_iter().peekable();
    while let Some(token) = tokens.next() {
        match token {
            TokenTree::Ident(word) if word.to_string() == "struct" || word.to_string() == "enum" => {
                name = tokens.next().map(|t| t.to_string());
            }
            TokenTree::Group(body) if name.is_some() => source = source_field(body.stream()),
            _ => {}
        }
    }
    let name = name.expect("a struct or an enum");
    let source = match source {
        Some(field) => format!("Some(&self.{field})"),
        None => "None".to_string(),
    };
    format!(
        "impl std::fmt::Display for {name} {{
            fn fmt(&self, f: &mut std::fmt::Formatter<'_>) -> std::fmt::Result {{ write!(f, \"{{self:?}}\") }}
        }}
        impl std::error::Error for {name} {{
            fn source(&self) -> Option<&(dyn std::error::Error + 'static)> {{ {source} }}
        }}"
    )
    .parse()
    .unwrap()
}

/// The name of the field after `#[source]`, past other attributes.
fn source_field(body: TokenStream) -> Option<String> {
    let mut marked = false;
    let mut last = None;
    for token in body {
        match token {
            TokenTree::Group(group) if group.stream().to_string() == "source" => marked = true,
            TokenTree::Punct(p) if marked && p.as_char() == ':' => return last,
            TokenTree::Ident(word) => last = Some(word.to_string()),
            _ => {}
        }
    }
    None
}
