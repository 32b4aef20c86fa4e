//! Documents of every form, each with its canonical spelling, 14 of them:
//! [`titles`] 4, [`blocks`] 2, [`images`] 2, [`links`] 1, [`lists`] 1, [`tables`] 2, [`commands`] 2.

use crate::cases::{imperative, nested, Case};

/// Titles and brackets: round and square, white space of each sort, and none where it is not needed.
fn titles() -> Vec<Case> {
    vec![
        nested(b"[document [title]]", b"[document [title]]"),
        nested(b"(document (title A))", b"[document [title \"A\"]]"),
        nested(
            b"[document[title\"A\"B\"C\"][section(title D)]]",
            b"[document [title \"A\" \"B\" \"C\"] [section [title \"D\"]]]",
        ),
        nested(b"\r\n ( document\t\n[ title A\nb ]\r\n ) \n", b"[document [title \"A\" \"b\"]]"),
    ]
}

/// Kinds 1 to 7, with id and type in either order.
fn blocks() -> Vec<Case> {
    vec![
        nested(
            b"(document (title A \"b c\") (type t_1) (id d.0) \
              [part [title P] [id \"p-1\"] [section [title] [type x] [subsection [title U] [paragraph] \
              [formal-item [title F] [type y] [id f] in] [footnote [id n] [type z] \"out\"]]]] \
              [part [title Q] [type 9]])",
            b"[document [title \"A\" \"b c\"] [id d.0] [type t_1] \
              [part [title \"P\"] [id p-1] [section [title] [type x] [subsection [title \"U\"] [paragraph] \
              [formal-item [title \"F\"] [id f] [type y] \"in\"] [footnote [id n] [type z] \"out\"]]]] \
              [part [title \"Q\"] [type 9]]]",
        ),
        nested(
            b"[document [title A] [id \"_\"] [type B_2] [section [title B] [type c] [id -.-]\
              (paragraph (id a) (type b) x \"y z\") [footnote [id \"\\u0061-b_c.9\"]] [paragraph [type q] [id p]] [formal-item [title]]]]",
            b"[document [title \"A\"] [id _] [type B_2] [section [title \"B\"] [id -.-] [type c] \
              [paragraph [id a] [type b] \"x\" \"y z\"] [footnote [id a-b_c.9]] [paragraph [id p] [type q]] [formal-item [title]]]]",
        ),
    ]
}

/// Images with and without a size; targets as symbols and strings.
fn images() -> Vec<Case> {
    vec![
        nested(
            b"[document [title A] [section [title B] [paragraph [image [target \"a/b.png\"] [size 0012 00000] [type w] alt] \
              (image (target http://x/?q=1~)) [image [target \"!\"] [size 65535 00001] \"a\" b] [image [target u] [type v]]]]]",
            b"[document [title \"A\"] [section [title \"B\"] [paragraph [image [target \"a/b.png\"] [size 12 0] [type w] \"alt\"] \
              [image [target \"http://x/?q=1~\"]] [image [target \"!\"] [size 65535 1] \"a\" \"b\"] [image [target \"u\"] [type v]]]]]",
        ),
        nested(
            b"[document [title A] [section [title B] [paragraph [image [target a\\b] [size 100 090]] [image [target \"(\\\"]\"]] \
              [link-ext [target \"\\u005c\"]]]]]",
            b"[document [title \"A\"] [section [title \"B\"] [paragraph [image [target \"a\\u005cb\"] [size 100 90]] [image [target \"(\\\"]\"]] \
              [link-ext [target \"\\u005c\"]]]]]",
        ),
    ]
}

/// Links to a block of each sort that has an id, links to elsewhere, and references to footnotes.
fn links() -> Vec<Case> {
    vec![
        nested(
            b"[document [title A] [id d] [section [title B] [id s] [paragraph [id p] [link [target d] see (image (target u)) \"this\"] \
              (link (target \"s\")) [link [target f] [image [target v] x]] [link-ext [target http://x] a b] [link-ext [target \"y\"]] \
              (footnote-ref (target f)) [link [target p]] [link [target \"i\\u002e\"]]] [footnote [id f] [footnote-ref [target \"f\"]]] \
              [formal-item [title] [id i.]]]]",
            b"[document [title \"A\"] [id d] [section [title \"B\"] [id s] [paragraph [id p] [link [target \"d\"] \"see\" [image [target \"u\"]] \"this\"] \
              [link [target \"s\"]] [link [target \"f\"] [image [target \"v\"] \"x\"]] [link-ext [target \"http://x\"] \"a\" \"b\"] [link-ext [target \"y\"]] \
              [footnote-ref [target \"f\"]] [link [target \"p\"]] [link [target \"i.\"]]] [footnote [id f] [footnote-ref [target \"f\"]]] \
              [formal-item [title] [id i.]]]]",
        ),
    ]
}

/// Lists, terms and verbatim texts.
fn lists() -> Vec<Case> {
    vec![
        nested(
            b"[document [title A] [section [title B] [paragraph [list-ordered] (list-unordered (item) [item a [list-ordered [item b] [item]] c]) \
              [term] [term [type t] a \"b\"] (term x) [verbatim z] [verbatim (type c) \"x  y\"] [list-unordered [item [verbatim \"[\"]]]]]]",
            b"[document [title \"A\"] [section [title \"B\"] [paragraph [list-ordered] [list-unordered [item] [item \"a\" [list-ordered [item \"b\"] [item]] \"c\"]] \
              [term] [term [type t] \"a\" \"b\"] [term \"x\"] [verbatim \"z\"] [verbatim [type c] \"x  y\"] [list-unordered [item [verbatim \"[\"]]]]]]",
        ),
    ]
}

/// Tables with and without type and head, empty ones, and one in an item in a cell.
fn tables() -> Vec<Case> {
    vec![
        nested(
            b"[document [title A] [section [title B] [paragraph (table (summary S) (type t) (head (name a) (name)) (body (row (cell x) (cell)) \
              (row (cell (term k)) (cell y z)))) [table [summary] [body]] [table [summary a b] [head] [body [row]]]]]]",
            b"[document [title \"A\"] [section [title \"B\"] [paragraph [table [summary \"S\"] [type t] [head [name \"a\"] [name]] [body [row [cell \"x\"] [cell]] \
              [row [cell [term \"k\"]] [cell \"y\" \"z\"]]]] [table [summary] [body]] [table [summary \"a\" \"b\"] [head] [body [row]]]]]]",
        ),
        nested(
            b"[document [title A] [section [title B] [paragraph [table [summary S] [type u] [body [row] [row [cell [list-ordered [item \
              [table [summary T] [body [row [cell c]]]]]]]]]]]]]",
            b"[document [title \"A\"] [section [title \"B\"] [paragraph [table [summary \"S\"] [type u] [body [row] [row [cell [list-ordered [item \
              [table [summary \"T\"] [body [row [cell \"c\"]]]]]]]]]]]]]",
        ),
    ]
}

/// Imperative texts.
fn commands() -> Vec<Case> {
    vec![
        imperative(
            b"[document [title A]] [section [title B]] [paragraph] hi",
            b"[document [title \"A\"] [section [title \"B\"] [paragraph \"hi\"]]]",
        ),
        imperative(
            b"[document [title A] [type m] [id d]] [part [title P]] [section [title S] [id s]] [subsection [title U]] [paragraph [type q] [id p]] \
              see [link [target s] it][footnote [id f] [type g]]\"note\"[formal-item [title F]] (image (target u) (size 007 8)) \
              [section [title V]] (paragraph) (footnote-ref (target f)) [paragraph [id o]] [list-ordered [item a]] [part [title Q] [type r]]",
            b"[document [title \"A\"] [id d] [type m] [part [title \"P\"] [section [title \"S\"] [id s] [subsection [title \"U\"] [paragraph [id p] [type q] \
              \"see\" [link [target \"s\"] \"it\"]] [footnote [id f] [type g] \"note\"] [formal-item [title \"F\"] [image [target \"u\"] [size 7 8]]]]] \
              [section [title \"V\"] [paragraph [footnote-ref [target \"f\"]]] [paragraph [id o] [list-ordered [item \"a\"]]]]] [part [title \"Q\"] [type r]]]",
        ),
    ]
}

/// 4, 2, 2, 1, 1, 2 and 2 documents.
pub fn forms() -> Vec<Case> {
    [titles(), blocks(), images(), links(), lists(), tables(), commands()].concat()
}
