//! A folder, of whose files alone anyone is told.
use around::failure::Failure;
use std::fs::{read_link, File, OpenOptions};
use std::os::unix::fs::OpenOptionsExt;
use std::os::unix::io::AsRawFd;
use std::path::{Component, Path, PathBuf};

/// Opens at once what would wait for a peer, as a pipe: a flag of Linux.
const O_NONBLOCK: i32 = 0o4000;

/// A folder, by its path without links.
pub struct Folder(PathBuf);

impl Folder {
    /// The folder at this path.
    pub fn new(path: &str) -> Result<Self, Failure> {
        let wrong = |error| Failure::fault(path, error);
        let root = Path::new(path).canonicalize().map_err(wrong)?;
        let none = || Failure::fault(path, "it is no folder");
        root.is_dir().then(|| Folder(root)).ok_or_else(none)
    }

    /// The file of this name, which begins with a slash, and how long it is; `None` where there is
    /// none in the folder. Links are followed as long as they stay in it: since one may be another
    /// by the time it is followed, what was opened is looked at, and where that is.
    pub fn open(&self, name: &str) -> Option<(File, u64)> {
        let name = Path::new(name.strip_prefix('/')?);
        if !name.components().all(|part| matches!(part, Component::Normal(_))) {
            return None;
        }
        let path = self.0.join(name).canonicalize().ok()?;
        if !path.starts_with(&self.0) || !path.is_file() {
            return None;
        }
        let file = OpenOptions::new().read(true).custom_flags(O_NONBLOCK).open(path).ok()?;
        let found = file.metadata().ok()?;
        let is_inside = place_of(&file)?.starts_with(&self.0);
        (is_inside && found.is_file()).then(|| (file, found.len()))
    }
}

/// Where a file is that was opened.
fn place_of(file: &File) -> Option<PathBuf> {
    read_link(format!("/proc/self/fd/{}", file.as_raw_fd())).ok()
}

#[cfg(test)]
mod tests {
    use super::Folder;
    use std::fs;
    use std::os::unix::fs::symlink;

    /// Files of the folder are opened, also by links that stay in it; and nothing else is.
    #[test]
    fn stays_inside() {
        let top = std::env::temp_dir().join(format!("serve.{}", std::process::id()));
        let inside = top.join("inside");
        fs::create_dir_all(inside.join("below")).unwrap();
        fs::write(top.join("secret"), "not to be told").unwrap();
        fs::write(inside.join("below/file"), "told").unwrap();
        symlink("../secret", inside.join("out")).unwrap();
        symlink("..", inside.join("up")).unwrap();
        symlink("below/file", inside.join("link")).unwrap();
        let folder = Folder::new(inside.to_str().unwrap()).unwrap();
        for name in ["/below/file", "/link", "/below//file"] {
            assert_eq!(folder.open(name).unwrap().1, 4, "{}", name);
        }
        let absolute = format!("/{}", top.join("secret").display());
        for name in [
            "/../secret",
            "/below/../../secret",
            "/out",
            "/up/secret",
            "/up/inside/below/file/..",
            "/below",
            "/",
            "",
            "below/file",
            "/none",
            "/a\0b",
            "/..",
            "/./below/file",
            &absolute,
        ] {
            assert!(folder.open(name).is_none(), "{}", name);
        }
        fs::remove_dir_all(top).unwrap();
    }
}
