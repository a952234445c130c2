//! mutate LIST: prints the names of the mutants in LIST. mutate LIST NAME FROM TO: copies the sources of FROM to TO with that mutant's lines replaced, each asserted to
//! match once.
//!
//! A mutant is a line `# name: words`, the file, and pairs of lines `- old` and `+ new`; `\n` in them stands for a new line.

use std::{fs, path::Path};

struct Mutant {
    name: String,
    file: String,
    pairs: Vec<(String, String)>,
}

fn read(list: &str) -> Vec<Mutant> {
    let mut all: Vec<Mutant> = Vec::new();
    for line in list.lines().filter(|line| !line.is_empty()) {
        let text = |from: usize| line[from..].replace("\\n", "\n");
        if let Some(title) = line.strip_prefix("# ") {
            let name = title.split(':').next().expect("a name").to_string();
            all.push(Mutant { name, file: String::new(), pairs: Vec::new() });
            continue;
        }
        let mutant = all.last_mut().expect("a mutant begins with its name");
        match line.as_bytes()[0] {
            b'-' => mutant.pairs.push((text(2), String::new())),
            b'+' => mutant.pairs.last_mut().expect("old lines come first").1 = if line.len() > 2 { text(2) } else { String::new() },
            _ => mutant.file = line.to_string(),
        }
    }
    all
}

fn make(mutant: &Mutant, from: &Path, to: &Path) {
    fs::create_dir_all(to).expect("the folder can be made");
    for entry in fs::read_dir(from).expect("the sources are there") {
        let path = entry.expect("an entry").path();
        let name = path.file_name().expect("a name");
        let mut text = fs::read_to_string(&path).expect("a source");
        if name.to_str() == Some(&mutant.file) {
            for (old, new) in &mutant.pairs {
                assert_eq!(text.matches(old.as_str()).count(), 1, "{}: {old}", mutant.name);
                text = text.replace(old.as_str(), new);
            }
        }
        fs::write(to.join(name), text).expect("a copy");
    }
}

fn main() {
    let words: Vec<String> = std::env::args().skip(1).collect();
    let list = read(&fs::read_to_string(&words[0]).expect("the list is readable"));
    let [_, name, from, to] = words.as_slice() else {
        list.iter().for_each(|mutant| println!("{}", mutant.name));
        return;
    };
    let mutant = list.iter().find(|mutant| mutant.name == *name).expect("its name is in the list");
    make(mutant, Path::new(from), Path::new(to));
}
