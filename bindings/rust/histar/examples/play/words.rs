//! The words of a call.
use crate::names::{Names, Unbound, Value};
use histar::{Call, Category, Entry, Kinds, Label, Level, Mapping, NewGate, Object, Rights};
use std::borrow::Cow;

/// The words of a call, read from left to right by one worker in one phase.
pub struct Words<'a, 'n> {
    pub words: std::str::SplitWhitespace<'a>,
    pub names: &'n Names<'a>,
    pub worker: &'a str,
    pub phase: usize,
}

impl<'a> Words<'a, '_> {
    fn word(&mut self) -> &'a str {
        self.words.next().expect("a script without a fault")
    }

    fn number<T: std::str::FromStr>(&mut self) -> T {
        self.word().parse().unwrap_or_else(|_| panic!("a script without a fault"))
    }

    fn value(&self, word: &'a str) -> Result<Value, Unbound<'a>> {
        self.names.value(word, self.worker, self.phase).ok_or(Unbound(word))
    }

    fn object(&mut self) -> Result<Object, Unbound<'a>> {
        let word = self.word();
        match word.strip_prefix('#') {
            Some(number) => Ok(Object(number.parse().expect("an id"))),
            None => match self.value(word)? {
                Value::Object(id) => Ok(id),
                Value::Category(_) => Err(Unbound(word)),
            },
        }
    }

    fn entry(&mut self) -> Result<Entry, Unbound<'a>> {
        Ok(Entry { container: self.object()?, object: self.object()? })
    }

    fn category(&self, word: &'a str) -> Result<Category, Unbound<'a>> {
        match word.strip_prefix('#') {
            Some(number) => Ok(Category(number.parse().expect("a category"))),
            None => match self.value(word)? {
                Value::Category(category) => Ok(category),
                Value::Object(_) => Err(Unbound(word)),
            },
        }
    }

    /// A label as it is spelled, so a category may stand in it twice.
    fn label(&mut self) -> Result<Cow<'static, Label>, Unbound<'a>> {
        let word = self.word();
        let mut parts: Vec<&str> = word[1..word.len() - 1].split(',').collect();
        let level = |word: &str| -> Level { word.parse().expect("a level") };
        let mut label = Label::new(level(parts.pop().expect("a default")));
        for part in parts {
            let (category, word) = part.split_once(':').expect("a pair");
            label.pairs.push((self.category(category)?, level(word)));
        }
        Ok(label.into())
    }

    fn bytes(&mut self) -> Cow<'static, [u8]> {
        let word = self.word();
        let digits = if word == "-" { "" } else { word };
        let byte = |place| u8::from_str_radix(&digits[place..place + 2], 16).expect("two digits");
        (0..digits.len()).step_by(2).map(byte).collect()
    }

    fn kinds(&mut self) -> Kinds {
        let word = self.word();
        let has = |letter| word.contains(letter);
        Kinds {
            container: has('c'),
            segment: has('s'),
            address_space: has('a'),
            thread: has('t'),
            gate: has('g'),
            device: has('d'),
        }
    }

    fn rights(&mut self) -> Rights {
        let word = self.word();
        Rights { read: word.contains('r'), write: word.contains('w') }
    }

    /// The call that the words spell.
    pub fn call(&mut self) -> Result<Call<'static>, Unbound<'a>> {
        Ok(match self.word() {
            // Made from bindings/calls.toml:
            "cat_create" => Call::CatCreate,
            "self_set_label" => Call::SelfSetLabel { label: self.label()? },
            "self_set_clearance" => Call::SelfSetClearance { clearance: self.label()? },
            "self_set_as" => Call::SelfSetAs { space: self.entry()? },
            "container_create" => Call::ContainerCreate {
                container: self.object()?,
                label: self.label()?,
                quota: self.number(),
                avoid: self.kinds(),
            },
            "segment_create" => Call::SegmentCreate {
                container: self.object()?,
                label: self.label()?,
                quota: self.number(),
                pages: self.number(),
            },
            "segment_copy" => Call::SegmentCopy {
                container: self.object()?,
                label: self.label()?,
                quota: self.number(),
                source: self.entry()?,
            },
            "as_create" => Call::AsCreate { container: self.object()?, label: self.label()?, quota: self.number() },
            "thread_create" => Call::ThreadCreate {
                container: self.object()?,
                label: self.label()?,
                quota: self.number(),
                clearance: self.label()?,
                entry_point: self.number(),
            },
            "gate_create" => Call::GateCreate(NewGate {
                container: self.object()?,
                label: self.label()?,
                quota: self.number(),
                clearance: self.label()?,
                space: self.entry()?,
                entry_point: self.number(),
                closure: self.number(),
            }),
            "link" => Call::Link { target: self.object()?, entry: self.entry()? },
            "unref" => Call::Unref { entry: self.entry()? },
            "quota_move" => Call::QuotaMove { entry: self.entry()?, change: self.number() },
            "set_fixed" => Call::SetFixed { entry: self.entry()? },
            "set_immutable" => Call::SetImmutable { entry: self.entry()? },
            "meta_set" => Call::MetaSet { entry: self.entry()?, bytes: self.bytes() },
            "segment_resize" => Call::SegmentResize { entry: self.entry()?, pages: self.number() },
            "segment_write" => Call::SegmentWrite { entry: self.entry()?, offset: self.number(), bytes: self.bytes() },
            "as_map" => {
                let (space, slot, page) = (self.entry()?, self.number(), self.number());
                let (segment, first, count) = (self.entry()?, self.number(), self.number());
                Call::AsMap { space, slot, mapping: Mapping { page, segment, first, count, rights: self.rights() } }
            }
            "as_unmap" => Call::AsUnmap { space: self.entry()?, slot: self.number() },
            "store" => Call::Store { address: self.number(), bytes: self.bytes() },
            "gate_enter" => Call::GateEnter {
                gate: self.entry()?,
                label: self.label()?,
                clearance: self.label()?,
                verify: self.label()?,
            },
            "dev_send" => Call::DevSend { entry: self.entry()?, bytes: self.bytes() },
            "dev_recv" => Call::DevRecv { entry: self.entry()? },
            "self_get" => Call::SelfGet,
            "obj_label" => Call::ObjLabel { entry: self.entry()? },
            "obj_quota" => Call::ObjQuota { entry: self.entry()? },
            "container_list" => Call::ContainerList { container: self.object()?, from: self.number() },
            "container_parent" => Call::ContainerParent { container: self.object()? },
            "segment_len" => Call::SegmentLen { entry: self.entry()? },
            "segment_read" => Call::SegmentRead { entry: self.entry()?, offset: self.number(), count: self.number() },
            "meta_get" => Call::MetaGet { entry: self.entry()? },
            "as_get" => Call::AsGet { space: self.entry()?, slot: self.number() },
            "load" => Call::Load { address: self.number(), count: self.number() },
            // (the end of what is made)
            word => panic!("no call: {word}"),
        })
    }
}
