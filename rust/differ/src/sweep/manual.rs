//! A manual that has every kind, every parameter, every escape and every sort of white space, in both spellings. One byte
//! more or less makes one of its ids another, or a target one that is on nothing.

pub const NESTED: &str = concat!(
    "[document [title \"A \\u00e9\" b] [type t] [id d]\r\n",
    "\t(part(title P)[section [title S] [id sc] [type t_2]\n",
    "[subsection [title] [id s]\n",
    "[paragraph [type y] [id p] \u{e9} \"q\\\"\\n\\r\\t\u{20ac}\"x[term [type k] w]\n",
    "[image [target \"i.png\"] [size 007 65535] [type y] c] [verbatim [type v] \"v\\u005c\"]\n",
    "[link [target sc] l [image [target j]]] [link-ext [target http://x] e] [footnote-ref [target fn]]\n",
    "[list-ordered [item a [list-unordered [item]]]]\n",
    "[table [summary m] [type q] [head [name n] [name]] [body [row [cell c] [cell [term]]]]]]\n",
    "[formal-item [title F] [id g] z]\n",
    "[footnote [id fn] [type w] \u{1f600}]]\n",
    "[subsection [title V]]][section [title T][paragraph][footnote [id \"h\"]]]) (part [title Q])]\n",
);

/// The same document.
pub const IMPERATIVE: &str = concat!(
    "[document [title \"A \\u00e9\" b] [type t] [id d]]\r\n",
    "\t(part(title P))[section [title S] [id sc] [type t_2]]\n",
    "[subsection [title] [id s]]\n",
    "[paragraph [type y] [id p]] \u{e9} \"q\\\"\\n\\r\\t\u{20ac}\"x[term [type k] w]\n",
    "[image [target \"i.png\"] [size 007 65535] [type y] c] [verbatim [type v] \"v\\u005c\"]\n",
    "[link [target sc] l [image [target j]]] [link-ext [target http://x] e] [footnote-ref [target fn]]\n",
    "[list-ordered [item a [list-unordered [item]]]]\n",
    "[table [summary m] [type q] [head [name n] [name]] [body [row [cell c] [cell [term]]]]]\n",
    "[formal-item [title F] [id g]] z\n",
    "[footnote [id fn] [type w]] \u{1f600}\n",
    "[subsection [title V]][section [title T]][paragraph][footnote [id \"h\"]] (part [title Q])\n",
);

/// By spelling, imperative second.
pub const SPELLED: [&str; 2] = [NESTED, IMPERATIVE];
