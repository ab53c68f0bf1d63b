//! The stories of `bindings/stories`, by this crate.

mod story;

use std::panic::catch_unwind;
use story::{stories, Interpreter};

#[test]
fn all_stories() {
    let stories = stories();
    let holds = |story| catch_unwind(|| Interpreter::tell(story, &Interpreter::make)).is_ok();
    let failed: Vec<_> = stories
        .iter()
        .filter(|story| !holds(*story))
        .map(|story| &story.name)
        .collect();
    assert!(stories.len() > 10 && failed.is_empty(), "{failed:?}");
}
