//! Colours, on a terminal only.

use std::io::{self, IsTerminal};

#[derive(Clone, Copy, Debug)]
pub struct Style {
    coloured: bool,
}

impl Style {
    pub const PLAIN: Style = Style { coloured: false };

    /// Colours if the standard output is a terminal and nobody has asked for none.
    pub fn of_output() -> Style {
        let wanted = std::env::var_os("NO_COLOR").is_none();
        Style { coloured: wanted && io::stdout().is_terminal() }
    }

    /// Something that is wrong.
    pub fn wrong(self, text: &str) -> String {
        self.paint("31", text)
    }

    /// Something to notice.
    pub fn marked(self, text: &str) -> String {
        self.paint("33", text)
    }

    fn paint(self, code: &str, text: &str) -> String {
        if self.coloured {
            format!("\x1b[{code}m{text}\x1b[0m")
        } else {
            text.to_string()
        }
    }
}
