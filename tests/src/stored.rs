//! The stored task files: examples/*.task, and the fuzzer's in tests/corpus.

use std::fs;
use std::io::Result;
use std::path::{Path, PathBuf};

/// Each file's path and bytes, in the order of their names.
pub fn files() -> Result<Vec<(PathBuf, Vec<u8>)>> {
    let tests = Path::new(env!("CARGO_MANIFEST_DIR"));
    let mut paths = Vec::new();
    for folder in ["../examples", "corpus"] {
        for entry in fs::read_dir(tests.join(folder))? {
            paths.push(entry?.path());
        }
    }
    paths.retain(|path| path.extension().is_none_or(|word| word == "task"));
    paths.sort();
    let with_bytes = |path: PathBuf| Ok((path.clone(), fs::read(path)?));
    paths.into_iter().map(with_bytes).collect()
}
