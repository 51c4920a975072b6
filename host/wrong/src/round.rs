//! Which edits are tried in one check.

use std::collections::BTreeSet;

use crate::owner::Wrong;

/// Edits of different functions, by their places in the list.
#[derive(Default)]
struct Shared<'a> {
    edits: Vec<usize>,
    functions: BTreeSet<&'a str>,
    promises: BTreeSet<&'a str>,
}

/// Rounds of edits. At most one edit of a function is in a round, so that bodies take as many rounds as the function with the
/// most edits. A function whose promise is edited is with none that uses it, as that would fail by itself; and an edited function is with
/// none that it waits for, as it would not be tried. An edit of a definition has a round of its own.
pub fn rounds(
    wrongs: &[&Wrong],
    uses: impl Fn(&str, &str) -> bool,
    waits: impl Fn(&str, &str) -> bool,
) -> Vec<Vec<usize>> {
    let mut alone = Vec::new();
    let mut shared: Vec<Shared> = Vec::new();
    for (index, wrong) in wrongs.iter().enumerate() {
        let (functions, promises) = match wrong {
            Wrong::Bodies(names) => (names.as_slice(), None),
            Wrong::Promise(name) => (std::slice::from_ref(name), Some(name.as_str())),
            Wrong::Definition => {
                alone.push(vec![index]);
                continue;
            }
        };
        let place = shared.iter().position(|round| round.takes(functions, promises, &uses, &waits));
        let place = place.unwrap_or_else(|| {
            shared.push(Shared::default());
            shared.len() - 1
        });
        let round = &mut shared[place];
        round.edits.push(index);
        round.functions.extend(functions.iter().map(String::as_str));
        round.promises.extend(promises);
    }
    shared.into_iter().map(|round| round.edits).chain(alone).collect()
}

impl Shared<'_> {
    fn takes(
        &self,
        functions: &[String],
        promise: Option<&str>,
        uses: &impl Fn(&str, &str) -> bool,
        waits: &impl Fn(&str, &str) -> bool,
    ) -> bool {
        let is_new = functions.iter().all(|name| !self.functions.contains(name.as_str()));
        let uses_none = functions.iter().all(|name| self.promises.iter().all(|promise| !uses(name, promise)));
        let is_unused = promise.is_none_or(|promise| self.functions.iter().all(|name| !uses(name, promise)));
        let waits = |name: &String| self.functions.iter().any(|other| waits(name, other) || waits(other, name));
        is_new && uses_none && is_unused && !functions.iter().any(waits)
    }
}
