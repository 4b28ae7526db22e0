//! The stored conformance sessions, as they are written: with the refusals that the papers ask for,
//! and without the results that recording adds.

use std::borrow::Cow;

pub struct Stored {
    pub name: &'static str,
    pub text: Cow<'static, str>,
}

impl Stored {
    /// The first comment line, which tells what the session is about.
    pub fn about(&self) -> &str {
        let first = self.text.lines().next().unwrap_or("");
        first.trim_start_matches('#').trim()
    }

    pub fn file_name(&self) -> String {
        format!("{}.session", self.name)
    }
}

/// Sessions by their names, each of them a file of the folder `scripts`.
macro_rules! scripts {
    ($($name:literal,)*) => {
        vec![$(Stored {
            name: $name,
            text: Cow::Borrowed(include_str!(concat!("../scripts/", $name, ".session"))),
        }),*]
    };
}

/// Every stored session.
pub fn all() -> Vec<Stored> {
    scripts![
        "fifteen-cases",
        "trap-task-55-bits",
        "trap-parent-nonce",
        "trap-number-given-again",
        "trap-drop-dead",
        "trap-plain-address",
        "each-operation",
        "unused-words",
        "bad-requests",
        "wide-words",
        "sizes-no-memory",
        "sizes-one-byte",
        "sizes-largest-memory",
        "sizes-memory-beyond",
        "sizes-one-entry",
        "sizes-two-entries",
        "sizes-most-entries",
        "sizes-entries-beyond",
        "sizes-odd-table",
        "settings-last-number",
        "settings-nonce-zero",
        "settings-nonce-beyond",
        "settings-wide-last",
        "settings-wide-nonce",
        "settings-total",
        "settings-wide-total",
        "tokens-in-each-encoding",
        "access-bounds",
        "permissions-within",
        "create-and-users",
        "create-whole",
        "create-whole-full-table",
        "merge-chain",
        "merge-refused",
        "derive-bounds",
        "derive-whole",
        "derive-one-byte",
        "execute-only",
        "drop-climb",
        "drop-climb-stops",
        "drop-climb-meets-zero",
        "drop-dead-lines",
        "drop-under-lock",
        "locks-through-derived",
        "locked-by-oneself",
        "not-lockable",
        "revoke",
        "revoke-passes-over",
        "revoke-passes-over-the-last",
        "rest-with-tag-zero",
        "counts-at-the-end",
        "nonces-at-the-end",
        "numbers-going-round",
        "handed-ill-formed",
        "handed-bad-ancestors",
        "handed-far-parents",
        "handed-overlapping",
        "handed-entry-zero",
        "handed-free-with-bytes",
        "handed-high-nonces",
        "places-of-each-operation",
        "order-access",
        "order-create",
        "order-derive",
        "order-derive-nonces",
        "order-lock-drop-revoke",
        "order-load",
        "order-total",
        "order-lease",
        "reset-again",
        "deep-line",
        "load-image",
        "load-malformed",
        "load-pages",
        "dump-text",
        "dump-longest",
        "total-from-reset",
        "total-wrong-low",
        "total-wrong-high",
        "total-number-zero",
        "total-climb",
        "lease-windows",
        "lease-several",
        "lease-derived",
        "lease-bad",
        "lease-sizes",
        "lease-others",
        "kept-tags",
        "kept-derive",
        "kept-freed",
        "kept-create",
        "kept-rest",
        "kept-merge",
        "kept-execute-only",
        "kept-returns",
        "kept-nonces",
        "kept-nonces-freed",
        "kept-nonces-three",
        "kept-handed",
        "kept-handed-bytes",
        "kept-handed-last",
        "kept-lock",
        "page-round-trip",
        "page-out-order",
        "page-in-order",
        "page-lengths",
        "page-number-zero",
        "page-totals",
        "page-total-top",
        "page-locks",
        "page-kept-tags",
        "page-passed",
        "page-passed-refused",
        "page-kept-freed",
        "paged-in-each-operation",
        "paged-merge",
        "paged-parent",
        "paged-ill-formed",
    ]
}
