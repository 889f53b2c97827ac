//! The derive of the stand-in `derive_more`. A format `#[debug("..")]` on a variant is handed to `write!` with the fields as `_0`, `_1`, ..
//! or by name, so that flags as in `{:#?}` end there; a format that is one field and nothing else hands them on, as in the real crate.
//! Without a format the output is that of the standard derive. What the sources don't use (formats on fields or on the whole type,
//! `skip`, `bound`) ends the build with an error.

use proc_macro::{Delimiter, Group, TokenStream, TokenTree};
use std::iter::Peekable;

type Tokens = Peekable<proc_macro::token_stream::IntoIter>;

#[proc_macro_derive(Debug, attributes(debug))]
pub fn debug(item: TokenStream) -> TokenStream {
    let mut tokens = item.into_iter().peekable();
    let format = attributes(&mut tokens);
    assert!(format.is_none(), "no format can stand on a whole type here");
    let is_enum = head(&mut tokens) == "enum";
    let name = word(&mut tokens);
    let params = params(&mut tokens);
    let mut bounds = String::new();
    let body = loop {
        match tokens.next().expect("a body in braces") {
            TokenTree::Group(body) if body.delimiter() == Delimiter::Brace => break body,
            token => bounds += &format!("{token} "),
        }
    };
    let arms = match is_enum {
        true => variants(body),
        false => arm("Self", &name, Some(body), None),
    };
    let declared: Vec<_> = params
        .iter()
        .map(|(param, bounds)| format!("{param}: {bounds} ::core::fmt::Debug"))
        .collect();
    let used: Vec<_> = params.iter().map(|(param, _)| param.as_str()).collect();
    let (declared, used) = (declared.join(", "), used.join(", "));
    let code = format!(
        "impl<{declared}> ::core::fmt::Debug for {name}<{used}> {bounds} {{
            #[allow(unused_variables)]
            fn fmt(&self, __f: &mut ::core::fmt::Formatter<'_>) -> ::core::fmt::Result {{ match self {{ {arms} }} }}
        }}"
    );
    code.parse().expect("an implementation")
}

/// Skips attributes and gives back the inside of `debug`, if that is among them.
fn attributes(tokens: &mut Tokens) -> Option<TokenStream> {
    let mut format = None;
    while is(tokens.peek(), '#') {
        tokens.next();
        let Some(TokenTree::Group(attribute)) = tokens.next() else {
            panic!("an attribute has brackets");
        };
        let mut inside = attribute.stream().into_iter().peekable();
        if word(&mut inside) == "debug" {
            let Some(TokenTree::Group(arguments)) = inside.next() else {
                panic!("`debug` has arguments");
            };
            let text = matches!(
                arguments.stream().into_iter().next(),
                Some(TokenTree::Literal(_))
            );
            assert!(text, "`debug` has a format here");
            format = Some(arguments.stream());
        }
    }
    format
}

fn is(token: Option<&TokenTree>, sign: char) -> bool {
    matches!(token, Some(TokenTree::Punct(found)) if found.as_char() == sign)
}

fn word(tokens: &mut Tokens) -> String {
    tokens.next().expect("a word").to_string()
}

/// `struct` or `enum`, past the visibility.
fn head(tokens: &mut Tokens) -> String {
    loop {
        let word = word(tokens);
        if word == "struct" || word == "enum" {
            return word;
        }
    }
}

/// Tokens up to a comma outside of angle brackets, or to the bracket that closes them all.
fn stretch(tokens: &mut Tokens) -> Vec<TokenTree> {
    let (mut depth, mut found) = (0, Vec::new());
    while let Some(token) = tokens.peek() {
        if depth == 0 && (is(Some(token), ',') || is(Some(token), '>')) {
            break;
        }
        depth += i32::from(is(Some(token), '<')) - i32::from(is(Some(token), '>'));
        found.extend(tokens.next());
    }
    found
}

/// The type parameters, each with its own bounds, defaults left out.
fn params(tokens: &mut Tokens) -> Vec<(String, String)> {
    let mut found = Vec::new();
    if !is(tokens.peek(), '<') {
        return found;
    }
    while !is(tokens.next().as_ref(), '>') {
        let param = stretch(tokens);
        let kept: Vec<_> = param
            .iter()
            .take_while(|token| !is(Some(token), '='))
            .map(ToString::to_string)
            .collect();
        if let Some((name, bounds)) = kept.split_first() {
            let bounds: String = bounds
                .iter()
                .skip(1)
                .map(|token| format!("{token} "))
                .collect();
            let bounds = if bounds.is_empty() {
                bounds
            } else {
                bounds + "+"
            };
            found.push((name.clone(), bounds));
        }
    }
    found
}

fn variants(body: Group) -> String {
    let mut tokens = body.stream().into_iter().peekable();
    let mut arms = String::new();
    while tokens.peek().is_some() {
        let format = attributes(&mut tokens);
        let name = word(&mut tokens);
        let fields = stretch(&mut tokens)
            .into_iter()
            .find_map(|token| match token {
                TokenTree::Group(fields) => Some(fields),
                _ => None,
            });
        tokens.next();
        arms += &arm(&format!("Self::{name}"), &name, fields, format);
    }
    arms
}

/// One arm of the match, for a variant or for a struct.
fn arm(path: &str, name: &str, fields: Option<Group>, format: Option<TokenStream>) -> String {
    let named = fields
        .as_ref()
        .is_some_and(|fields| fields.delimiter() == Delimiter::Brace);
    let names = fields.map_or(Vec::new(), |fields| field_names(fields, named));
    let list = names.join(", ");
    let pattern = match (named, names.is_empty()) {
        (true, _) => format!("{path} {{ {list} }}"),
        (false, true) => path.to_string(),
        (false, false) => format!("{path}({list})"),
    };
    let shown = match format {
        Some(format) => formatted(&format.to_string(), &names),
        None => plain(name, named, &names),
    };
    format!("{pattern} => {shown},\n")
}

fn field_names(fields: Group, named: bool) -> Vec<String> {
    let mut tokens = fields.stream().into_iter().peekable();
    let mut names = Vec::new();
    while tokens.peek().is_some() {
        assert!(
            attributes(&mut tokens).is_none(),
            "no format can stand on a field here"
        );
        let field = stretch(&mut tokens);
        tokens.next();
        // The name is the last word before the first colon, behind the visibility.
        let before = field
            .iter()
            .take_while(|token| !is(Some(token), ':'))
            .last();
        let name = before.expect("a field").to_string();
        names.push(if named {
            name
        } else {
            format!("_{}", names.len())
        });
    }
    names
}

fn formatted(format: &str, names: &[String]) -> String {
    let alone = |kind: &str, sign: &str| {
        let field = names
            .iter()
            .find(|name| format == format!("\"{{{name}{sign}}}\""));
        field.map(|name| format!("::core::fmt::{kind}::fmt({name}, __f)"))
    };
    let handed_on = alone("Debug", ":?").or_else(|| alone("Display", ""));
    handed_on.unwrap_or_else(|| format!("::core::write!(__f, {format})"))
}

/// As the standard derive does it.
fn plain(name: &str, named: bool, names: &[String]) -> String {
    if names.is_empty() {
        return format!("__f.write_str(\"{name}\")");
    }
    let kind = if named { "debug_struct" } else { "debug_tuple" };
    let field = |field: &String| match named {
        true => format!(".field(\"{field}\", {field})"),
        false => format!(".field({field})"),
    };
    let fields: String = names.iter().map(field).collect();
    format!("__f.{kind}(\"{name}\"){fields}.finish()")
}
