//! Lists the declarations of a context, whose map is private.
//!
//! The Debug form shows the map, so it is read back; each entry is then checked
//! against the public way to one declaration.

use crate::context::PlPgSqlContext;

#[derive(Debug)]
pub struct Declaration {
    pub name: String,
    pub data_type: String,
    pub default: Option<String>,
}

impl Declaration {
    fn agrees_with(&self, context: &PlPgSqlContext) -> bool {
        context.get_declaration(&self.name).is_some_and(|found| {
            found.name == self.name
                && found.data_type == self.data_type
                && found.default_value == self.default
        })
    }
}

/// All declarations in byte order of names.
pub fn list(context: &PlPgSqlContext) -> Result<Vec<Declaration>, String> {
    let shown = format!("{context:?}");
    let list = Reader { rest: &shown }.map().ok_or_else(|| unreadable(&shown))?;
    let rising = list.windows(2).all(|pair| pair[0].name < pair[1].name);
    if rising && list.iter().all(|declaration| declaration.agrees_with(context)) {
        Ok(list)
    } else {
        Err(unreadable(&shown))
    }
}

fn unreadable(shown: &str) -> String {
    format!("the declarations cannot be read from {shown}")
}

/// Reads a Debug form from the front; `None` where the form is another.
struct Reader<'a> {
    rest: &'a str,
}

impl Reader<'_> {
    fn map(&mut self) -> Option<Vec<Declaration>> {
        self.expect("PlPgSqlContext { declarations: {")?;
        let mut list = Vec::new();
        while !self.take("}") {
            if !list.is_empty() {
                self.expect(", ")?;
            }
            list.push(self.entry()?);
        }
        // A preprocessed context holds declarations and nothing else.
        self.expect(", persistent_bindings: {}, scoped_bindings: {}, condition_stack: [], ")?;
        Some(list)
    }

    fn entry(&mut self) -> Option<Declaration> {
        let key = self.string()?;
        self.expect(": VariableDeclaration { name: ")?;
        let name = self.string()?;
        self.expect(", data_type: ")?;
        let data_type = self.string()?;
        self.expect(", default_value: ")?;
        let default = self.default()?;
        self.expect(" }")?;
        (key == name).then_some(Declaration { name, data_type, default })
    }

    fn default(&mut self) -> Option<Option<String>> {
        if self.take("None") {
            return Some(None);
        }
        self.expect("Some(")?;
        let text = self.string()?;
        self.expect(")")?;
        Some(Some(text))
    }

    fn string(&mut self) -> Option<String> {
        self.expect("\"")?;
        let mut text = String::new();
        loop {
            match self.character()? {
                '"' => return Some(text),
                '\\' => text.push(self.escaped()?),
                plain => text.push(plain),
            }
        }
    }

    /// The character that an escape stands for; its backslash is already read.
    fn escaped(&mut self) -> Option<char> {
        match self.character()? {
            'n' => Some('\n'),
            'r' => Some('\r'),
            't' => Some('\t'),
            '0' => Some('\0'),
            'u' => self.code_point(),
            plain @ ('"' | '\\' | '\'') => Some(plain),
            _ => None,
        }
    }

    fn code_point(&mut self) -> Option<char> {
        self.expect("{")?;
        let (digits, rest) = self.rest.split_once('}')?;
        self.rest = rest;
        char::from_u32(u32::from_str_radix(digits, 16).ok()?)
    }

    fn character(&mut self) -> Option<char> {
        let mut characters = self.rest.chars();
        let first = characters.next()?;
        self.rest = characters.as_str();
        Some(first)
    }

    fn take(&mut self, front: &str) -> bool {
        let stripped = self.rest.strip_prefix(front);
        self.rest = stripped.unwrap_or(self.rest);
        stripped.is_some()
    }

    fn expect(&mut self, front: &str) -> Option<()> {
        self.take(front).then_some(())
    }
}
