//! Stand-in for `derivative`: `PartialEq` and `Eq` of an enum without generics, whose variants
//! have no fields or unnamed ones, where a field may be left out of the comparison by
//! `#[derivative(PartialEq = "ignore")]`.

use proc_macro::{Delimiter, Group, TokenStream, TokenTree};

#[proc_macro_derive(Derivative, attributes(derivative))]
pub fn derive(input: TokenStream) -> TokenStream {
    let tokens: Vec<TokenTree> = input.into_iter().collect();
    let at = tokens
        .iter()
        .position(|token| token.to_string() == "enum")
        .expect("the stand-in for derivative knows enums only");
    let name = &tokens[at + 1];
    let TokenTree::Group(body) = &tokens[at + 2] else {
        panic!("the stand-in for derivative knows no generics");
    };
    let arms: String = split_at_commas(body).iter().map(|v| arm(v)).collect();
    let code = format!(
        "impl PartialEq for {name} {{
             fn eq(&self, other: &Self) -> bool {{
                 match (self, other) {{ {arms} _ => false }}
             }}
         }}
         impl Eq for {name} {{}}"
    );
    code.parse().expect("the generated impl parses")
}

/// The arm that compares two of one variant.
fn arm(variant: &[TokenTree]) -> String {
    let name = variant
        .iter()
        .find(|token| matches!(token, TokenTree::Ident(_)))
        .expect("a variant has a name");
    let Some(TokenTree::Group(group)) = variant.last() else {
        return format!("(Self::{name}, Self::{name}) => true,");
    };
    if group.delimiter() != Delimiter::Parenthesis {
        panic!("the stand-in for derivative knows unnamed fields only");
    }
    let (mut left, mut right, mut test) = (String::new(), String::new(), String::from("true"));
    for (n, field) in split_at_commas(group).iter().enumerate() {
        if field.iter().any(|token| token.to_string().contains("ignore")) {
            left += "_,";
            right += "_,";
        } else {
            left += &format!("a{n},");
            right += &format!("b{n},");
            test += &format!(" && a{n} == b{n}");
        }
    }
    format!("(Self::{name}({left}), Self::{name}({right})) => {test},")
}

fn split_at_commas(group: &Group) -> Vec<Vec<TokenTree>> {
    let tokens: Vec<TokenTree> = group.stream().into_iter().collect();
    tokens
        .split(|token| matches!(token, TokenTree::Punct(p) if p.as_char() == ','))
        .filter(|part| !part.is_empty())
        .map(<[TokenTree]>::to_vec)
        .collect()
}
