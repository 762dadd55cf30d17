//! Stands for the registry crate `duplicate`: `duplicate! { [names; row; row;] body }` gives the body once per row,
//! with each name replaced by the tokens the row has in its place.

use proc_macro::{Delimiter, Group, TokenStream, TokenTree};

#[proc_macro]
pub fn duplicate(input: TokenStream) -> TokenStream {
    let mut tokens = input.into_iter();
    let Some(TokenTree::Group(table)) = tokens.next() else { panic!("duplicate! starts with a table in brackets") };
    let body: TokenStream = tokens.collect();
    let rows = rows(table.stream());
    let (names, rows) = rows.split_first().expect("duplicate!'s table starts with a row of names");
    let names: Vec<String> = names.iter().map(TokenTree::to_string).collect();
    rows.iter().map(|row| replace(body.clone(), &names, row)).collect()
}

/// The table's rows, each ended by a semicolon.
fn rows(table: TokenStream) -> Vec<Vec<TokenTree>> {
    let mut rows = vec![];
    let mut row = vec![];
    for token in table {
        if token.to_string() == ";" { rows.push(std::mem::take(&mut row)) } else { row.push(token) }
    }
    rows
}

fn replace(body: TokenStream, names: &[String], row: &[TokenTree]) -> TokenStream {
    body.into_iter().flat_map(|token| replace_one(token, names, row)).collect()
}

fn replace_one(token: TokenTree, names: &[String], row: &[TokenTree]) -> TokenStream {
    match token {
        TokenTree::Group(group) => {
            let mut inner = Group::new(group.delimiter(), replace(group.stream(), names, row));
            inner.set_span(group.span());
            TokenTree::Group(inner).into()
        }
        TokenTree::Ident(ident) => match names.iter().position(|name| *name == ident.to_string()) {
            Some(place) => in_brackets(&row[place]),
            None => TokenTree::Ident(ident).into(),
        },
        other => other.into(),
    }
}

fn in_brackets(cell: &TokenTree) -> TokenStream {
    match cell {
        TokenTree::Group(group) if group.delimiter() == Delimiter::Bracket => group.stream(),
        _ => panic!("duplicate!'s cells stand in brackets"),
    }
}
