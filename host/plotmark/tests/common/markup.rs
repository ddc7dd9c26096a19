//! A small checker of pages: elements nest and close, attributes are quoted and come
//! once, every `&` is an escape, every link leads to something.

use std::collections::BTreeSet;

/// An element as it opened: its name, and its attributes.
pub type Element = (String, Vec<(String, String)>);

const ESCAPES: [&str; 4] = ["&amp;", "&lt;", "&gt;", "&quot;"];

fn check_text(text: &str, case: &str) {
    assert!(!text.contains('>'), "{case}: > in text {text:?}");
    for (place, _) in text.match_indices('&') {
        let rest = &text[place..];
        let known = ESCAPES.iter().any(|it| rest.starts_with(it));
        assert!(known, "{case}: {rest:.10}");
    }
}

fn is_name(text: &str) -> bool {
    !text.is_empty()
        && text
            .bytes()
            .all(|it| it.is_ascii_alphanumeric() || it == b'-')
}

fn element(inside: &str, case: &str) -> Element {
    let (name, mut rest) = inside.split_once(' ').unwrap_or((inside, ""));
    assert!(is_name(name), "{case}: element {name:?}");
    let mut attributes: Vec<(String, String)> = Vec::new();
    while !rest.is_empty() {
        let (key, value) = rest
            .split_once("=\"")
            .unwrap_or_else(|| panic!("{case}: {inside}"));
        let (value, after) = value
            .split_once('"')
            .unwrap_or_else(|| panic!("{case}: {inside}"));
        assert!(is_name(key), "{case}: attribute {key:?}");
        assert!(
            attributes.iter().all(|it| it.0 != key),
            "{case}: {key} twice in {inside}"
        );
        check_text(value, case);
        attributes.push((key.to_string(), value.to_string()));
        rest = after.strip_prefix(' ').unwrap_or(after);
    }
    (name.to_string(), attributes)
}

/// Checks a page, and gives its elements in order.
pub fn check(page: &str, case: &str) -> Vec<Element> {
    let mut rest = page
        .strip_prefix("<!DOCTYPE html>\n")
        .unwrap_or_else(|| panic!("{case}"));
    let (mut open, mut found): (Vec<String>, Vec<Element>) = (Vec::new(), Vec::new());
    while let Some((text, after)) = rest.split_once('<') {
        let is_own = matches!(open.last().map(String::as_str), Some("style" | "script"));
        if !is_own {
            check_text(text, case);
        }
        let (tag, after) = after
            .split_once('>')
            .unwrap_or_else(|| panic!("{case}: no end"));
        rest = after;
        if let Some(name) = tag.strip_prefix('/') {
            assert_eq!(open.pop().as_deref(), Some(name), "{case}");
            continue;
        }
        let alone = tag.strip_suffix('/');
        let opened = element(alone.unwrap_or(tag), case);
        if alone.is_none() {
            open.push(opened.0.clone());
        }
        found.push(opened);
    }
    assert!(
        open.is_empty() && rest == "\n",
        "{case}: {open:?} left open"
    );
    check_links(&found, case);
    found
}

/// The value of an attribute.
pub fn value<'a>(element: &'a Element, key: &str) -> Option<&'a str> {
    let mut attributes = element.1.iter();
    attributes.find(|it| it.0 == key).map(|it| it.1.as_str())
}

fn check_links(found: &[Element], case: &str) {
    let mut ids = BTreeSet::new();
    for id in found.iter().filter_map(|it| value(it, "id")) {
        assert!(ids.insert(id), "{case}: id {id} twice");
    }
    for link in found.iter().filter_map(|it| value(it, "href")) {
        let id = link
            .strip_prefix('#')
            .unwrap_or_else(|| panic!("{case}: {link} leads away"));
        assert!(ids.contains(id), "{case}: nothing has the id {id}");
    }
    for outside in ["src", "style", "onclick", "onload"] {
        assert!(
            found.iter().all(|it| value(it, outside).is_none()),
            "{case}: {outside}"
        );
    }
}
