//! Pages as HTML.

use crate::pages::{Content, Element, Page, Part};

/// Elements without end tag.
const VOID: [&str; 18] = [
    "area", "base", "br", "col", "embed", "hr", "img", "input", "link", "meta", "source", "track", "wbr", "basefont",
    "bgsound", "frame", "keygen", "param",
];
/// Elements whose texts aren't escaped.
const RAW: [&str; 7] = ["style", "script", "xmp", "iframe", "noembed", "noframes", "plaintext"];

/// Appends what parts of a page show.
pub fn append_parts(page: &Page, parts: &[Part], is_raw: bool, out: &mut String) {
    for part in parts {
        match part {
            Part::Node(node) => match &page.nodes[*node].content {
                Content::Text(text) if is_raw => out.push_str(text),
                Content::Text(text) => append_escaped(text, false, out),
                Content::Element(element) => append_element(page, element, out),
                Content::Gone => {}
            },
            Part::Branch { parts, .. } => append_parts(page, parts, is_raw, out),
            Part::Rows(rows) => rows.iter().for_each(|row| append_parts(page, &row.parts, is_raw, out)),
        }
    }
}

fn append_element(page: &Page, element: &Element, out: &mut String) {
    out.push('<');
    out.push_str(&element.name);
    for (name, value) in &element.attributes {
        if let Some(value) = value {
            out.push(' ');
            out.push_str(name);
            out.push_str("=\"");
            append_escaped(value, true, out);
            out.push('"');
        }
    }
    out.push('>');
    if VOID.contains(&&*element.name) {
        return;
    }
    append_parts(page, &element.parts, RAW.contains(&&*element.name), out);
    out.push_str("</");
    out.push_str(&element.name);
    out.push('>');
}

fn append_escaped(text: &str, is_quoted: bool, out: &mut String) {
    let mut from = 0;
    for (place, character) in text.char_indices() {
        let spelled = match character {
            '&' => "&amp;",
            '<' => "&lt;",
            '>' => "&gt;",
            '\u{a0}' => "&nbsp;",
            '"' if is_quoted => "&quot;",
            _ => continue,
        };
        out.push_str(&text[from..place]);
        out.push_str(spelled);
        from = place + character.len_utf8();
    }
    out.push_str(&text[from..]);
}
