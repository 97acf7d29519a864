//! Which vectors of a folder count: those of the requests that have landed.

use crate::landed::Landed;
use std::collections::BTreeMap;
use std::io;
use std::path::{Path, PathBuf};

/// A text and its log, each from the folder that counts.
#[derive(Debug, Default, PartialEq, Eq)]
pub struct Log {
    pub text: Option<PathBuf>,
    pub log: Option<PathBuf>,
}

/// What was found.
#[derive(Debug, Default, PartialEq, Eq)]
pub struct Folder {
    /// By the name that text and log share.
    pub logs: BTreeMap<String, Log>,
    /// Lists of calls.
    pub calls: Vec<PathBuf>,
    /// How many vectors are of requests that have not landed.
    pub passed_over: usize,
    /// What should name a request and doesn't.
    pub strange: Vec<PathBuf>,
}

impl Folder {
    /// Looks through a folder: texts and logs in itself and in `after-N`, lists of calls in `calls/N-NAME.calls`, N being the
    /// request that they are of. Where a text or a log stands in several, that of the request that landed last counts.
    pub fn look(folder: &Path, landed: &Landed) -> io::Result<Folder> {
        let mut found = Folder::default();
        found.add_logs(folder)?;
        let mut after = BTreeMap::new();
        for (name, path) in files(folder)? {
            let Some(request) = name.strip_prefix("after-") else { continue };
            match request.parse::<u32>() {
                Ok(request) if landed.has(request) => drop(after.insert(request, path)),
                Ok(_) => found.passed_over += with(&path, "log")?.len(),
                Err(_) => found.strange.push(path),
            }
        }
        for part in landed.0.iter().filter_map(|request| after.get(request)) {
            found.add_logs(part)?;
        }
        found.add_calls(&folder.join("calls"), landed)?;
        Ok(found)
    }

    /// The texts and logs of a folder, in place of those that were there before.
    fn add_logs(&mut self, folder: &Path) -> io::Result<()> {
        for (name, text) in with(folder, "text")? {
            self.logs.entry(name).or_default().text = Some(text);
        }
        for (name, log) in with(folder, "log")? {
            self.logs.entry(name).or_default().log = Some(log);
        }
        Ok(())
    }

    fn add_calls(&mut self, folder: &Path, landed: &Landed) -> io::Result<()> {
        if !folder.is_dir() {
            return Ok(());
        }
        for (name, path) in with(folder, "calls")? {
            let request = name.split_once('-').and_then(|(request, _)| request.parse().ok());
            match request {
                Some(request) if landed.has(request) => self.calls.push(path),
                Some(_) => self.passed_over += 1,
                None => self.strange.push(path),
            }
        }
        Ok(())
    }
}

/// What stands in a folder, in the order of names.
fn files(folder: &Path) -> io::Result<BTreeMap<String, PathBuf>> {
    let entry = |entry: io::Result<std::fs::DirEntry>| {
        entry.map(|entry| (entry.file_name().to_string_lossy().into_owned(), entry.path()))
    };
    std::fs::read_dir(folder)?.map(entry).collect()
}

/// The files of a folder with an ending, by their names without it.
fn with(folder: &Path, ending: &str) -> io::Result<Vec<(String, PathBuf)>> {
    let ending = format!(".{ending}");
    let named = |(name, path): (String, PathBuf)| Some((name.strip_suffix(&ending)?.to_string(), path));
    Ok(files(folder)?.into_iter().filter_map(named).collect())
}

#[cfg(test)]
pub mod tests {
    use super::*;

    /// A folder that is gone when it isn't used any more.
    pub struct Made(PathBuf);

    impl std::ops::Deref for Made {
        type Target = Path;

        fn deref(&self) -> &Path {
            &self.0
        }
    }

    impl Drop for Made {
        fn drop(&mut self) {
            let _ = std::fs::remove_dir_all(&self.0);
        }
    }

    /// A folder with these files in it; each test has one of its own name.
    pub fn made(name: &str, files: &[(&str, &str)]) -> Made {
        let folder = std::env::temp_dir().join(format!("lembuya-vectors-{}-{name}", std::process::id()));
        for (file, content) in files {
            let path = folder.join(file);
            std::fs::create_dir_all(path.parent().unwrap()).unwrap();
            std::fs::write(path, content).unwrap();
        }
        Made(folder)
    }

    /// What is looked at of these files, as paths within their folder: texts, logs and calls; and how many are passed over.
    fn looked_at(name: &str, landed: &[u32], files: &[&str]) -> (Vec<String>, usize) {
        let folder = made(name, &files.iter().map(|file| (*file, "")).collect::<Vec<_>>());
        let found = Folder::look(&folder, &Landed(landed.to_vec())).unwrap();
        assert_eq!(found.strange, Vec::<PathBuf>::new());
        let logs = found.logs.into_values().flat_map(|log| [log.text, log.log]).flatten();
        let path = |path: PathBuf| path.strip_prefix(&*folder).unwrap().to_string_lossy().into_owned();
        (logs.chain(found.calls).map(path).collect(), found.passed_over)
    }

    #[test]
    fn of_several_logs_the_one_that_landed_last_counts() {
        let files = ["a.text", "a.log", "after-4/a.text", "after-4/a.log", "after-2/a.text", "after-2/a.log"];
        let last = |name, landed: &[u32]| looked_at(name, landed, &files);
        let pair = |folder: &str| vec![format!("{folder}a.text"), format!("{folder}a.log")];
        assert_eq!(last("none", &[]), (pair(""), 2));
        assert_eq!(last("four", &[4]), (pair("after-4/"), 1));
        assert_eq!(last("two", &[4, 2]), (pair("after-2/"), 0));
        assert_eq!(last("again", &[2, 4]), (pair("after-4/"), 0));
    }

    #[test]
    fn a_log_alone_counts_for_the_text_before_it() {
        let found = looked_at("alone", &[4], &["a.text", "a.log", "after-4/a.log"]);
        assert_eq!(found, (vec!["a.text".into(), "after-4/a.log".into()], 0));
    }

    #[test]
    fn what_has_not_landed_is_counted_by_its_logs_and_calls() {
        let files = [
            "a.text",
            "after-3/a.text",
            "after-3/a.log",
            "after-14/b.plan",
            "after-14/b.first",
            "after-14/b.log",
            "calls/06-a.calls",
            "calls/12-a.calls",
            "calls/README.md",
        ];
        assert_eq!(
            looked_at("not", &[12, 13], &files),
            (vec!["a.text".into(), "calls/12-a.calls".into()], 3)
        );
    }

    #[test]
    fn what_names_no_request_is_told() {
        let folder = made("strange", &[("after-x/a.log", ""), ("calls/a.calls", "")]);
        let found = Folder::look(&folder, &Landed(vec![4])).unwrap();
        assert_eq!(found.strange, [folder.join("after-x"), folder.join("calls/a.calls")]);
    }
}
