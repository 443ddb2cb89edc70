//! What a refusal names, beside why.
use histar::trusted::{session_of, Record, Thread};
use histar::{label, Call, Entry, Keep, Kernel, Kinds, Label, Mapping, NewGate, Object, Refusal, Refused, Rights};
use std::borrow::Cow;
use std::io::ErrorKind;

const NAMED: Object = Object(7);
const OTHER: Object = Object(9);

fn some_label() -> Cow<'static, Label> {
    Cow::Owned(label! { L1 })
}

fn new_gate() -> NewGate<'static> {
    NewGate {
        container: NAMED,
        label: some_label(),
        quota: 1,
        clearance: some_label(),
        space: Entry::in_root(OTHER),
        entry_point: 0,
        closure: 0,
    }
}

/// Calls that name no object, with their words.
fn calls_of_none() -> Vec<(&'static str, Call<'static>)> {
    vec![
        ("cat_create", Call::CatCreate),
        ("self_set_label", Call::SelfSetLabel { label: some_label() }),
        ("self_set_clearance", Call::SelfSetClearance { clearance: some_label() }),
        ("store", Call::Store { address: 0, bytes: b"x"[..].into() }),
        ("self_get", Call::SelfGet),
        ("load", Call::Load { address: 0, count: 1 }),
    ]
}

/// Calls that make an object in a container, which they name.
fn creations() -> Vec<(&'static str, Call<'static>)> {
    let (container, label, clearance, source) = (NAMED, some_label, some_label, Entry::in_root(OTHER));
    let avoid = Kinds::NONE;
    vec![
        ("container_create", Call::ContainerCreate { container, label: label(), quota: 1, avoid }),
        ("segment_create", Call::SegmentCreate { container, label: label(), quota: 1, pages: 0 }),
        ("segment_copy", Call::SegmentCopy { container, label: label(), quota: 1, source }),
        ("as_create", Call::AsCreate { container, label: label(), quota: 1 }),
        (
            "thread_create",
            Call::ThreadCreate { container, label: label(), quota: 1, clearance: clearance(), entry_point: 0 },
        ),
        ("gate_create", Call::GateCreate(new_gate())),
    ]
}

/// Other write calls, of an object that they name.
fn changes() -> Vec<(&'static str, Call<'static>)> {
    let (entry, space, gate, bytes) = (Entry::in_root(NAMED), Entry::in_root(NAMED), Entry::in_root(NAMED), &b"x"[..]);
    let mapping = Mapping { page: 0, segment: Entry::in_root(OTHER), first: 0, count: 1, rights: Rights::READ };
    let (label, clearance, verify) = (some_label(), some_label(), some_label());
    vec![
        ("self_set_as", Call::SelfSetAs { space }),
        ("link", Call::Link { target: OTHER, entry }),
        ("unref", Call::Unref { entry }),
        ("quota_move", Call::QuotaMove { entry, change: -1 }),
        ("set_fixed", Call::SetFixed { entry }),
        ("set_immutable", Call::SetImmutable { entry }),
        ("meta_set", Call::MetaSet { entry, bytes: bytes.into() }),
        ("segment_resize", Call::SegmentResize { entry, pages: 1 }),
        ("segment_write", Call::SegmentWrite { entry, offset: 0, bytes: bytes.into() }),
        ("as_map", Call::AsMap { space, slot: 0, mapping }),
        ("as_unmap", Call::AsUnmap { space, slot: 0 }),
        ("gate_enter", Call::GateEnter { gate, label, clearance, verify }),
        ("dev_send", Call::DevSend { entry, bytes: bytes.into() }),
        ("dev_recv", Call::DevRecv { entry }),
    ]
}

/// Read calls of an object that they name.
fn queries() -> Vec<(&'static str, Call<'static>)> {
    let (entry, space, container) = (Entry::in_root(NAMED), Entry::in_root(NAMED), NAMED);
    vec![
        ("obj_label", Call::ObjLabel { entry }),
        ("obj_quota", Call::ObjQuota { entry }),
        ("container_list", Call::ContainerList { container, from: 0 }),
        ("container_parent", Call::ContainerParent { container }),
        ("segment_len", Call::SegmentLen { entry }),
        ("segment_read", Call::SegmentRead { entry, offset: 0, count: 1 }),
        ("meta_get", Call::MetaGet { entry }),
        ("as_get", Call::AsGet { space, slot: 0 }),
    ]
}

/// A thread that is gone is refused every call, whichever was made before it.
#[test]
fn a_refusal_names_its_call_and_object() {
    let kernel = Kernel::boot(64).unwrap();
    let gone = session_of(&kernel, Thread(99));
    let named = creations().into_iter().chain(changes()).chain(queries()).map(|(word, call)| (word, call, Some(NAMED)));
    let all: Vec<_> = named.chain(calls_of_none().into_iter().map(|(word, call)| (word, call, None))).collect();
    assert_eq!(all.len(), 34);
    for (word, call, object) in all {
        gone.unref(Entry::in_root(OTHER)).unwrap_err();
        let refused = gone.call(&call).unwrap_err();
        assert_eq!(refused, Refused { call: word, object, reason: Refusal::Halted });
        assert_eq!(Refused::call(&call, Refusal::Halted), refused);
        let printed = object.map_or(word.to_owned(), |object| format!("{word} {object}"));
        assert_eq!(refused.to_string(), format!("{printed}: 1 Halted"));
        if !call.is_read() {
            assert_eq!(kernel.play(&Record::new(Thread(99), &call).unwrap()).err(), Some(refused));
        }
    }
}

#[test]
fn what_is_no_call_has_its_methods_name() {
    let kernel = Kernel::boot(64).unwrap();
    let late = Kernel::boot(64).unwrap();
    late.session().cat_create().unwrap();
    assert_eq!(Kernel::boot(7).unwrap_err().to_string(), "boot: 31 BadLimits");
    assert_eq!(Kernel::open_at("").unwrap_err().to_string(), "open_at: 50 TextFault");
    assert_eq!(kernel.dump().unwrap_err().to_string(), "dump: 45 BadBatch");
    assert_eq!(late.log_on(1000, Keep::Writes).unwrap_err().to_string(), "log_on: 45 BadBatch");
}

#[test]
fn a_refusal_is_an_error_of_the_system() {
    let kernel = Kernel::boot(64).unwrap();
    let refused = kernel.session().segment_len(Entry::in_root(NAMED)).unwrap_err();
    assert_eq!(Refusal::from(refused), Refusal::NoEntry);
    let error = std::io::Error::from(refused);
    assert_eq!((error.kind(), error.to_string()), (ErrorKind::NotFound, "segment_len #7: 3 NoEntry".to_owned()));
    let refused = |reason| std::io::Error::from(Refused { call: "load", object: None, reason }).kind();
    assert_eq!(refused(Refusal::RightsDenied), ErrorKind::PermissionDenied);
    assert_eq!(refused(Refusal::Memory), ErrorKind::OutOfMemory);
    assert_eq!(refused(Refusal::Bounds), ErrorKind::InvalidInput);
    assert_eq!(refused(Refusal::TextFault), ErrorKind::InvalidData);
    assert_eq!(refused(Refusal::Halted), ErrorKind::Other);
}
