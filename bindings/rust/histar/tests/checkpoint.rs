//! A kernel that comes back at the text of its checkpoint, and a log that is cut.
use histar::trusted::{session_of, Thread};
use histar::{label, Entry, Keep, Kernel, Kinds, Label, Limits, Mapping, NewGate, Object, Refusal, Refused, Rights};
use std::fmt::Debug;

const ROOT: Object = Object::ROOT;

/// A kernel with objects of each kind, as calls leave it.
fn filled() -> Kernel {
    let kernel = Kernel::boot_with(&Limits { next_id: 9, next_category: 5, ..Limits::pages(128) }).unwrap();
    let boot = kernel.session();
    kernel.log_on(1000, Keep::Writes).unwrap();
    let c = boot.cat_create().unwrap();
    let (plain, guarded) = (label! { L1 }, label! { c => L3; L1 });
    let folder = boot.container_create(ROOT, &plain, 40, Kinds { gate: true, ..Kinds::default() }).unwrap();
    let gone = boot.segment_create(folder, &plain, 3, 1).unwrap();
    let inner = boot.container_create(folder, &guarded, 10, Kinds::default()).unwrap();
    let secret = Entry { container: inner, object: boot.segment_create(inner, &guarded, 4, 2).unwrap() };
    boot.segment_write(secret, 250, b"secret").unwrap();
    boot.meta_set(secret, b"about it").unwrap();
    boot.set_fixed(secret).unwrap();
    boot.link(ROOT, secret).unwrap();
    boot.set_immutable(secret).unwrap();
    let space = Entry::in_root(boot.as_create(ROOT, &plain, 2).unwrap());
    let pages = Entry::in_root(boot.segment_create(ROOT, &plain, 5, 3).unwrap());
    boot.as_map(space, 3, Mapping { page: 7, segment: pages, first: 1, count: 2, rights: Rights::READ_WRITE }).unwrap();
    boot.self_set_as(space).unwrap();
    boot.store(7 * 256 + 9, b"stored").unwrap();
    let thread = boot.thread_create(ROOT, &plain, 2, &label! { L2 }, 77).unwrap();
    thread.cat_create().unwrap();
    assert_eq!(thread.segment_read(secret, 0, 1).unwrap_err().reason, Refusal::NoAccess);
    let (label, clearance) = (label! { c => Star; L1 }, label! { c => L3; L2 });
    let gate = NewGate { space, entry_point: 8, closure: 9, ..NewGate::new(&label, &clearance) };
    boot.gate_create(&gate).unwrap();
    boot.dev_send(Entry::in_root(Object::DEVICE), b"first").unwrap();
    boot.dev_send(Entry::in_root(Object::DEVICE), b"second").unwrap();
    boot.unref(Entry { container: folder, object: gone }).unwrap();
    kernel
}

/// What a read is answered, as text.
fn put<T: Debug>(out: &mut String, read: Result<T, Refused>) {
    *out += &format!("{read:?}\n");
}

/// What every thread is answered by every read of every object through every container, and what look-ups find.
fn all_reads(kernel: &Kernel) -> String {
    let mut out = String::new();
    let ids: Vec<Object> = (0..).map_while(|place| kernel.kept_live(place)).collect();
    for thread in &ids {
        let session = session_of(kernel, Thread::from(*thread));
        put(&mut out, session.self_get());
        put(&mut out, session.load(7 * 256 + 9, 6));
        for container in &ids {
            put(&mut out, session.container_list(*container, 0));
            put(&mut out, session.container_parent(*container));
            for object in &ids {
                let entry = Entry { container: *container, object: *object };
                put(&mut out, session.obj_label(entry));
                put(&mut out, session.obj_quota(entry));
                put(&mut out, session.meta_get(entry));
                put(&mut out, session.segment_len(entry));
                for offset in (0..768).step_by(64) {
                    put(&mut out, session.segment_read(entry, offset, 64));
                }
                for slot in 0..16 {
                    put(&mut out, session.as_get(entry, slot));
                }
            }
        }
        for slot in 0..16 {
            out += &format!("{:?}\n", kernel.kept_translation(*thread, slot));
        }
        out += &format!("{:?}\n", kernel.kept_use(*thread));
    }
    out
}

/// The labels that a kernel keeps, sorted.
fn labels(kernel: &Kernel) -> Vec<String> {
    let mut labels: Vec<String> =
        (0..400).filter_map(|index| kernel.kept_label(index)).map(|it: Label| format!("{it:?}")).collect();
    labels.sort();
    labels
}

#[test]
fn a_kernel_comes_back() {
    let kernel = filled();
    let text = kernel.checkpoint().unwrap();
    assert_eq!(kernel.checkpoint().unwrap(), text);
    let again = Kernel::open_at(&text).unwrap();
    assert_eq!(all_reads(&again), all_reads(&kernel));
    assert_eq!(labels(&again), labels(&kernel));
    again.log_on(1000, Keep::Writes).unwrap();
    assert_eq!(again.checkpoint().unwrap(), text);
    // (both go on alike: ids, categories, packets, and the numbers of threads)
    for it in [&kernel, &again] {
        let boot = it.session();
        assert_eq!(boot.cat_create().unwrap().0, 7);
        assert_eq!(boot.segment_create(ROOT, &label! { L1 }, 2, 1), Ok(Object(17)));
        assert_eq!(boot.dev_recv(Entry::in_root(Object::DEVICE)).unwrap(), b"first");
        assert_eq!(boot.dev_recv(Entry::in_root(Object::DEVICE)).unwrap(), b"second");
        assert_eq!(boot.store(7 * 256 + 9, b"later"), Ok(()));
    }
    assert_eq!(again.checkpoint(), kernel.checkpoint());
    assert_eq!(all_reads(&again), all_reads(&kernel));
}

#[test]
fn a_log_is_cut() {
    let kernel = filled();
    let (text, whole) = (kernel.checkpoint().unwrap(), kernel.dump().unwrap());
    kernel.cut_log(1000, Keep::Writes).unwrap();
    assert_eq!(kernel.dump().unwrap(), text);
    kernel.session().cat_create().unwrap();
    let number = 1 + whole.lines().filter(|line| line.starts_with("event 2 ")).count();
    let dump = kernel.dump().unwrap();
    let events: Vec<&str> = dump.lines().filter(|line| line.starts_with("event ")).collect();
    assert_eq!(events, [format!("event 2 {number} cat_create => cat #7")]);
    // (a kernel whose calls were not kept begins a log so too)
    let late = Kernel::boot(64).unwrap();
    late.session().cat_create().unwrap();
    late.cut_log(1000, Keep::Writes).unwrap();
    late.session().cat_create().unwrap();
    assert!(late.dump().unwrap().contains("event 2 1 cat_create => cat #2\n"));
}

#[test]
fn what_is_no_checkpoint_opens_nothing() {
    let kernel = filled();
    let text = kernel.checkpoint().unwrap();
    let refused = |text: &str| Kernel::open_at(text).unwrap_err().reason;
    for len in 0..text.len() {
        assert_eq!(refused(&text[..len]), Refusal::TextFault, "{len} bytes");
    }
    assert_eq!(refused(&text.replace("histar-dump 2", "histar-dump 3")), Refusal::TextFault);
    assert_eq!(Kernel::open_at([text.as_bytes(), &[255]].concat()).unwrap_err().reason, Refusal::TextFault);
    assert_eq!(refused(&text.replacen("object 1 container", "object 8 container", 1)), Refusal::IllFormed);
    assert_eq!(refused(&kernel.dump().unwrap()), Refusal::HasEvents);
    let booted = Kernel::open_at("histar-dump 1\nlimits 64 1 4 1\nend\n").unwrap();
    assert_eq!(booted.checkpoint(), Kernel::boot(64).unwrap().checkpoint());
}
