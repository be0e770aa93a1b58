//! Folders that a program may read, and paths in them, which never lead out of them.

use crate::wasi::Errno;
use std::collections::VecDeque;
use std::fs;
use std::path::{Path, PathBuf};

/// A folder: its name for the program, if a flag names it, and where it is on the machine.
pub struct Folder {
    pub name: Option<String>,
    pub root: PathBuf,
}

/// How many symbolic links a path may go through.
const LINKS: usize = 40;

impl Folder {
    /// The folder that `--dir` names: `FOLDER`, or `FOLDER::NAME` with the name that it has for the program.
    pub fn named(text: &str) -> Result<Self, String> {
        let (folder, name) = text.split_once("::").unwrap_or((text, text));
        let root = fs::canonicalize(folder).map_err(|it| format!("{folder} can't be read: {it}"))?;
        if !root.is_dir() {
            return Err(format!("{folder} is no folder"));
        }
        Ok(Self { name: Some(name.to_owned()), root })
    }

    /// Where a path in the folder leads, and whether a symbolic link at its end is followed.
    ///
    /// It is walked name by name. A name that isn't followed further is of no link, so that each step stays below the root
    /// where it seems to; a step above the root is refused before anything there is looked at.
    pub fn find(&self, path: &str, follows: bool) -> Result<PathBuf, Errno> {
        let mut names = names_of(path)?;
        let (mut found, mut depth, mut links) = (self.root.clone(), 0, 0);
        while let Some(name) = names.pop_front() {
            if name == ".." {
                depth = usize::checked_sub(depth, 1).ok_or(Errno::NotCapable)?;
                found.pop();
                continue;
            }
            found.push(&name);
            let metadata = fs::symlink_metadata(&found)?;
            if metadata.is_symlink() && (follows || !names.is_empty()) {
                links += 1;
                let target = fs::read_link(&found)?;
                found.pop();
                put_before(&mut names, &target, links)?;
                continue;
            }
            if !names.is_empty() && !metadata.is_dir() {
                return Err(Errno::NotFolder);
            }
            depth += 1;
        }
        Ok(found)
    }
}

/// The names of a path, of which the program isn't to give an absolute one.
fn names_of(path: &str) -> Result<VecDeque<String>, Errno> {
    if path.contains('\0') {
        return Err(Errno::Invalid);
    }
    if path.is_empty() {
        return Err(Errno::NoEntry);
    }
    if Path::new(path).has_root() || path.starts_with('/') {
        return Err(Errno::NotCapable);
    }
    let names = path.split('/').filter(|it| !matches!(*it, "" | "."));
    if cfg!(windows) && names.clone().any(|it| it.contains(['\\', ':'])) {
        return Err(Errno::NotCapable);
    }
    Ok(names.map(str::to_owned).collect())
}

/// Puts what a link leads to before the names that are left.
fn put_before(names: &mut VecDeque<String>, target: &Path, links: usize) -> Result<(), Errno> {
    if links > LINKS {
        return Err(Errno::Loop);
    }
    let target = names_of(target.to_str().ok_or(Errno::IllegalName)?)?;
    target.into_iter().rev().for_each(|it| names.push_front(it));
    Ok(())
}

#[cfg(all(test, unix))]
mod tests {
    use super::*;
    use std::os::unix::fs::symlink;

    /// A folder with a file and links, beside a file that no path in it may reach.
    fn folder(name: &str) -> (PathBuf, Folder) {
        let top = std::env::temp_dir().join(format!("engine-{name}-{}", std::process::id()));
        let _ = fs::remove_dir_all(&top);
        fs::create_dir_all(top.join("in/deep")).unwrap();
        fs::write(top.join("out.txt"), "out").unwrap();
        fs::write(top.join("in/a.txt"), "a").unwrap();
        let root = top.join("in");
        for (name, target) in [
            ("up", ".."),
            ("out", "../out.txt"),
            ("absolute", "/etc/passwd"),
            ("loop", "loop"),
            ("inside", "deep/../a.txt"),
            ("deep/back", "../a.txt"),
            ("deep/far", "../../in/a.txt"),
            ("gone", "nothing"),
        ] {
            symlink(target, root.join(name)).unwrap();
        }
        (top.clone(), Folder::named(root.to_str().unwrap()).unwrap())
    }

    #[test]
    fn paths_stay_in_the_folder() {
        let (top, folder) = folder("stay");
        let found = |path: &str| folder.find(path, true);
        let file = folder.root.join("a.txt");
        for path in ["a.txt", "./a.txt", "deep/../a.txt", "deep//.././a.txt", "inside", "deep/back"] {
            assert_eq!(found(path), Ok(file.clone()), "{path}");
        }
        assert_eq!(found("."), Ok(folder.root.clone()));
        assert_eq!(found("deep/.."), Ok(folder.root.clone()));
        for path in [
            "..",
            "../out.txt",
            "../in/a.txt",
            "deep/../..",
            "deep/../../out.txt",
            "/",
            "/etc/passwd",
            "//a.txt",
            "up",
            "up/out.txt",
            "up/in/a.txt",
            "out",
            "absolute",
            "deep/far",
        ] {
            assert_eq!(found(path), Err(Errno::NotCapable), "{path}");
        }
        fs::remove_dir_all(top).unwrap();
    }

    #[test]
    fn paths_that_lead_nowhere() {
        let (top, folder) = folder("nowhere");
        let found = |path: &str| folder.find(path, true);
        assert_eq!(found(""), Err(Errno::NoEntry));
        assert_eq!(found("b.txt"), Err(Errno::NoEntry));
        assert_eq!(found("gone"), Err(Errno::NoEntry));
        assert_eq!(found("a.txt/b"), Err(Errno::NotFolder));
        assert_eq!(found("a.txt/../a.txt"), Err(Errno::NotFolder));
        assert_eq!(found("loop"), Err(Errno::Loop));
        assert_eq!(found("a\0"), Err(Errno::Invalid));
        assert_eq!(folder.find("out", false), Ok(folder.root.join("out")));
        assert_eq!(folder.find("up/out.txt", false), Err(Errno::NotCapable));
        fs::remove_dir_all(top).unwrap();
    }
}
