//! Each form is read as what was written, and what is none is refused.
use histar::{label, Category, Entry, Label, Level, Object, Refusal};
use serde::{Deserialize, Serialize};

#[derive(Serialize, Deserialize, PartialEq, Debug)]
struct All {
    #[serde(with = "histar_serde::label")]
    label: Label,
    #[serde(with = "histar_serde::level")]
    level: Level,
    #[serde(with = "histar_serde::object")]
    object: Object,
    #[serde(with = "histar_serde::category")]
    category: Category,
    #[serde(with = "histar_serde::entry")]
    entry: Entry,
    #[serde(with = "histar_serde::refusal")]
    refusal: Refusal,
}

const TEXT: &str = r##"{"label":"{#3:3,#4:*,1}","level":"*","object":7,"category":3,"entry":[1,7],"refusal":5}"##;

#[test]
fn each_is_read_as_it_was_written() {
    let all = All {
        label: label! { Category(3) => L3, Category(4) => Star; L1 },
        level: Level::Star,
        object: Object(7),
        category: Category(3),
        entry: Entry::in_root(Object(7)),
        refusal: Refusal::CannotObserve,
    };
    assert_eq!(serde_json::to_string(&all).unwrap(), TEXT);
    assert_eq!(serde_json::from_str::<All>(TEXT).unwrap(), all);
}

#[test]
fn what_is_none_is_refused() {
    for (old, new) in [("{#3:3,", "{#3:5,"), ("\"*\"", "\"4\""), ("7,", "-7,"), (":3,\"e", ":\"3\",\"e"), ("[1,7]", "[1]"), (":5}", ":26}")] {
        let text = TEXT.replacen(old, new, 1);
        assert_ne!(text, TEXT);
        assert!(serde_json::from_str::<All>(&text).is_err(), "{text}");
    }
}
