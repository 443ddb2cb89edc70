//! What names things in a kernel, by serde: labels and levels as scripts spell them, ids, categories and refusals as numbers. A module each, for
//! `#[serde(with = "..")]`. Nothing that a kernel holds is written: no kernel, session, call or bytes.
//!
//! ```
//! use histar::{label, Category, Entry, Label, Object};
//! #[derive(serde::Serialize, serde::Deserialize, PartialEq, Debug)]
//! struct Client {
//!     #[serde(with = "histar_serde::label")]
//!     label: Label,
//!     #[serde(with = "histar_serde::entry")]
//!     mail: Entry,
//! }
//! let client = Client { label: label! { Category(3) => Star; L1 }, mail: Entry::in_root(Object(7)) };
//! let text = serde_json::to_string(&client)?;
//! assert_eq!(text, r##"{"label":"{#3:*,1}","mail":[1,7]}"##);
//! assert_eq!(serde_json::from_str::<Client>(&text)?, client);
//! # Ok::<(), serde_json::Error>(())
//! ```
#![deny(rustdoc::broken_intra_doc_links)]

/// A module that writes a value in the form of another, and reads it from there.
macro_rules! form {
    ($(#[$means:meta])* $name:ident, $value:ty, $form:ty, $write:expr, $read:expr) => {
        $(#[$means])*
        pub mod $name {
            use serde::de::{Deserialize, Deserializer, Error};
            use serde::ser::{Serialize, Serializer};

            /// Writes the value.
            ///
            /// # Errors
            /// Those of the format.
            pub fn serialize<S: Serializer>(value: &$value, to: S) -> Result<S::Ok, S::Error> {
                let write: fn(&$value) -> $form = $write;
                write(value).serialize(to)
            }

            /// Reads the value.
            ///
            /// # Errors
            /// Those of the format, and where what stands there is no such value.
            pub fn deserialize<'de, D: Deserializer<'de>>(from: D) -> Result<$value, D::Error> {
                let read: fn($form) -> Result<$value, &'static str> = $read;
                read(<$form>::deserialize(from)?).map_err(D::Error::custom)
            }
        }
    };
}

form!(
    /// A [`Label`](histar::Label) as its text.
    label,
    histar::Label,
    String,
    |label| label.to_string(),
    |text| text.parse().map_err(|_| "the text spells no label")
);
form!(
    /// A [`Level`](histar::Level) as its text.
    level,
    histar::Level,
    String,
    |level| level.to_string(),
    |text| text.parse().map_err(|_| "the text spells no level")
);
form!(
    /// An [`Object`](histar::Object) as its id.
    object,
    histar::Object,
    u64,
    |object| object.0,
    |id| Ok(histar::Object(id))
);
form!(
    /// A [`Category`](histar::Category) as its number.
    category,
    histar::Category,
    u64,
    |category| category.0,
    |number| Ok(histar::Category(number))
);
form!(
    /// An [`Entry`](histar::Entry) as two ids.
    entry,
    histar::Entry,
    (u64, u64),
    |entry| (entry.container.0, entry.object.0),
    |ids| Ok(histar::Entry { container: histar::Object(ids.0), object: histar::Object(ids.1) })
);
form!(
    /// A [`Refusal`](histar::Refusal) as its number.
    refusal,
    histar::Refusal,
    u32,
    |refusal| refusal.number(),
    |number| histar::Refusal::of(number).ok_or("the number is none of a refusal")
);
