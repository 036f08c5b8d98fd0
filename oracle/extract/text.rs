//! Edits of a source text that stop where the text is not the expected one.

use std::path::Path;

/// A file of the source, under its path below `crates/tellegen/src`.
pub struct Text {
    path: String,
    text: String,
}

fn stop(path: &str, what: &str) -> ! {
    eprintln!("oracle/extract: {path}: {what}");
    std::process::exit(1);
}

impl Text {
    pub fn read(root: &Path, path: &str) -> Text {
        match std::fs::read_to_string(root.join(path)) {
            Ok(text) => Text { path: path.to_owned(), text },
            Err(error) => stop(path, &error.to_string()),
        }
    }

    /// `from` becomes `to` at each of exactly `count` places.
    pub fn replace(&mut self, from: &str, to: &str, count: usize) {
        let found = self.text.matches(from).count();
        if found != count {
            stop(&self.path, &format!("expected {count} of {from:?}, found {found}"));
        }
        self.text = self.text.replace(from, to);
    }

    /// A whole line, exactly once there, goes.
    pub fn drop_line(&mut self, line: &str) {
        self.replace(&format!("\n{line}\n"), "\n", 1);
    }

    /// `pub(crate)` and `pub(super)`, `count` of them, become `pub`.
    pub fn widen(&mut self, count: usize) {
        let found = self.text.matches("pub(crate)").count() + self.text.matches("pub(super)").count();
        if found != count {
            stop(&self.path, &format!("expected {count} of pub(crate) and pub(super), found {found}"));
        }
        self.text = self.text.replace("pub(crate)", "pub").replace("pub(super)", "pub");
    }

    /// The text from `first`, exactly once there, to the end of the next `last`.
    pub fn piece(&self, first: &str, last: &str) -> String {
        if self.text.matches(first).count() != 1 {
            stop(&self.path, &format!("expected one {first:?}"));
        }
        let start = self.text.find(first).unwrap_or(0);
        let rest = &self.text[start..];
        match rest.find(last) {
            Some(at) => rest[..at + last.len()].to_owned(),
            None => stop(&self.path, &format!("no {last:?} after {first:?}")),
        }
    }

    pub fn add(&mut self, more: &str) {
        self.text.push_str(more);
    }

    /// A text of pieces under the same path.
    pub fn with(&self, text: String) -> Text {
        Text { path: self.path.clone(), text }
    }

    pub fn write(&self, root: &Path) {
        self.write_as(root, &self.path);
    }

    pub fn write_as(&self, root: &Path, path: &str) {
        let to = root.join(path);
        let folder = to.parent().unwrap_or(root);
        let note = format!("\n// Made by oracle/build from {} of the source.\n", self.path);
        let made = std::fs::create_dir_all(folder);
        let done = made.and_then(|()| std::fs::write(&to, self.text.clone() + &note));
        if let Err(error) = done {
            stop(&self.path, &error.to_string());
        }
    }
}
