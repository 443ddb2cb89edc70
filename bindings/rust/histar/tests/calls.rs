//! What the kernel answers through the binding: each call once, malformed arguments, and a kernel that goes from thread to
//! thread.
use histar::{
    label, Call, Category, Entered, Entry, Kernel, Kinds, Label, Level, Limits, Listed, Mapping, NewGate, Object,
    Quota, Refusal, Reply, Rights,
};
use std::cmp::Ordering;
use std::sync::Mutex;

const ROOT: Object = Object::ROOT;

fn kernel() -> Kernel {
    Kernel::boot(1024).unwrap()
}

#[test]
fn a_stranger_is_refused_and_the_owner_is_not() {
    let kernel = kernel();
    let boot = kernel.session();
    let c = boot.cat_create().unwrap();
    let secret = Entry::in_root(boot.segment_create(ROOT, &label! { c => L3; L1 }, 2, 1).unwrap());
    let stranger = boot.thread_create(ROOT, &label! { L1 }, 1, &label! { L2 }, 7).unwrap();
    boot.segment_write(secret, 250, b"secret").unwrap();
    assert_eq!(boot.segment_read(secret, 250, 6).unwrap(), b"secret");
    assert_eq!(stranger.segment_read(secret, 250, 6).unwrap_err().reason, Refusal::CannotObserve);
    assert_eq!(stranger.segment_write(secret, 250, b"x").unwrap_err().reason, Refusal::CannotObserve);
}

#[test]
fn each_call_answers() {
    let kernel = kernel();
    let boot = kernel.session();
    let plain = label! { L1 };
    let c = boot.cat_create().unwrap();
    assert_eq!(c, Category(1));
    let folder = boot.container_create(ROOT, &plain, 40, Kinds { thread: true, ..Kinds::NONE }).unwrap();
    let other = boot.container_create(ROOT, &plain, 40, Kinds::NONE).unwrap();
    let created = boot.thread_create(folder, &plain, 1, &plain, 0);
    assert_eq!(created.unwrap_err().reason, Refusal::AvoidType);
    let segment = boot.segment_create(folder, &plain, 4, 2).unwrap();
    let entry = Entry::new(folder, segment);
    let copy = boot.segment_copy(ROOT, &plain, 3, entry).unwrap();
    assert_eq!(boot.segment_len(Entry::in_root(copy)), Ok(2));
    boot.quota_move(entry, 2).unwrap();
    boot.quota_move(entry, -1).unwrap();
    boot.segment_resize(entry, 3).unwrap();
    boot.set_fixed(entry).unwrap();
    let quota = Quota { quota: 5, used: 4, fixed: true, immutable: false };
    assert_eq!(boot.obj_quota(entry), Ok(quota));
    boot.link(other, entry).unwrap();
    assert_eq!(boot.container_list(other, 0), Ok(Listed { length: 1, ids: vec![segment] }));
    assert_eq!(boot.container_parent(other), Ok(ROOT));
    boot.unref(entry).unwrap();
    let entry = Entry::new(other, segment);
    boot.meta_set(entry, b"name").unwrap();
    assert_eq!(boot.meta_get(entry).unwrap()[..5], *b"name\0");
    let space = Entry::in_root(boot.as_create(ROOT, &plain, 1).unwrap());
    let mapping = Mapping { page: 4, segment: entry, first: 1, count: 2, rights: Rights::READ_WRITE };
    boot.as_map(space, 3, mapping).unwrap();
    assert_eq!(boot.as_get(space, 3), Ok(Some(mapping)));
    let shown = Mapping { page: 9, first: 0, rights: Rights::READ, ..mapping };
    boot.as_map(space, 4, shown).unwrap();
    assert_eq!(boot.as_get(space, 4), Ok(Some(shown)));
    boot.self_set_as(space).unwrap();
    boot.store(4 * 256 + 9, b"stored").unwrap();
    assert_eq!(boot.load(4 * 256 + 9, 6).unwrap(), b"stored");
    assert_eq!(boot.segment_read(entry, 256 + 9, 6).unwrap(), b"stored");
    boot.as_unmap(space, 3).unwrap();
    assert_eq!(boot.as_get(space, 3), Ok(None));
    assert_eq!(boot.load(4 * 256, 1).unwrap_err().reason, Refusal::NotMapped);
    let device = Entry::in_root(Object::DEVICE);
    boot.dev_send(device, b"packet").unwrap();
    assert_eq!(boot.dev_recv(device).unwrap(), b"packet");
    let owned = label! { c => Star; L1 };
    let guarded = label! { c => L3; L2 };
    let gate = NewGate { space, entry_point: 7, closure: 9, ..NewGate::new(&owned, &guarded) };
    let gate = boot.gate_create(&gate).unwrap();
    boot.self_set_label(&plain).unwrap();
    boot.self_set_clearance(&label! { L2 }).unwrap();
    let entered = boot.gate_enter(Entry::in_root(gate), &owned, &label! { c => L3; L2 }, &label! { L3 });
    assert_eq!(entered, Ok(Entered { entry_point: 7, closure: 9 }));
    let own = boot.self_get().unwrap();
    assert_eq!((own.label, own.clearance, own.verify), (owned, label! { c => L3; L2 }, label! { L3 }));
    assert_eq!((own.space, own.entry_point, own.closure), (space, 7, 9));
    boot.set_immutable(entry).unwrap();
    assert_eq!(boot.segment_write(entry, 0, b"x").unwrap_err().reason, Refusal::Immutable);
    assert!(boot.obj_quota(entry).unwrap().immutable);
    assert_eq!(boot.obj_label(entry), Ok(plain));
}

#[test]
fn what_is_no_call_changes_nothing() {
    let kernel = kernel();
    let boot = kernel.session();
    let segment = Entry::in_root(boot.segment_create(ROOT, &label! { L1 }, 2, 1).unwrap());
    assert_eq!(boot.segment_write(segment, 0, &[1; 65]).unwrap_err().reason, Refusal::BadBatch);
    assert_eq!(boot.meta_set(segment, &[1; 65]).unwrap_err().reason, Refusal::BadBatch);
    let wide = (1..26).fold(label! { L1 }, |label, c| label.with(Category(c), Level::L2));
    assert_eq!(boot.self_set_label(&wide).unwrap_err().reason, Refusal::BadBatch);
    assert_eq!(boot.segment_write(segment, 200, &[1; 64]).unwrap_err().reason, Refusal::Bounds);
    assert_eq!(boot.segment_read(segment, 192, 64).unwrap(), [0; 64]);
    boot.segment_write(segment, 0, &[1; 64]).unwrap();
    assert_eq!(boot.segment_read(segment, 0, 64).unwrap(), [1; 64]);
}

#[test]
fn limits_out_of_range_boot_no_kernel() {
    assert_eq!(Kernel::boot(7).unwrap_err().reason, Refusal::BadLimits);
    assert_eq!(Kernel::boot(1025).unwrap_err().reason, Refusal::BadLimits);
    let star = Limits { device: Level::Star, ..Limits::pages(64) };
    assert_eq!(Kernel::boot_with(&star).unwrap_err().reason, Refusal::BadLimits);
    let last = Kernel::boot_with(&Limits { next_category: (1 << 61) - 1, ..Limits::pages(8) }).unwrap();
    assert_eq!(last.session().cat_create(), Ok(Category((1 << 61) - 1)));
    assert_eq!(last.session().cat_create().unwrap_err().reason, Refusal::Spent);
}

#[test]
fn labels_are_values() {
    let (c, d) = (Category(3), Category(4));
    let one = label! { c => L3, d => Star; L1 };
    assert_eq!(one, label! { d => Star, c => L3; L1 });
    assert_ne!(one, label! { c => L3; L1 });
    assert_eq!((one.get(c), one.get(d), one.get(Category(5))), (Level::L3, Level::Star, Level::L1));
    let mut other = one.clone();
    other.set(c, Level::L2);
    other.set(Category(5), Level::L0);
    assert_eq!(other, label! { c => L2, d => Star, Category(5) => L0; L1 });
    assert_eq!(other.partial_cmp(&one), Some(Ordering::Less));
    assert_eq!(one.partial_cmp(&other), Some(Ordering::Greater));
    assert_eq!(one.partial_cmp(&label! { c => L0, d => L3; L1 }), None);
    assert_eq!(one.join(&label! { L2 }), label! { c => L3; L2 });
    assert_eq!(one.meet(&label! { L2 }), label! { c => L2, d => Star; L1 });
    assert!(Level::Star < Level::L0 && Level::L0 < Level::L1 && Level::L2 < Level::L3);
    assert_eq!((Level::try_from(3), Level::try_from(4).is_err()), (Ok(Level::L3), true));
    assert_eq!(Kinds::THREADS | Kinds::GATES, Kinds { thread: true, gate: true, ..Kinds::NONE });
    assert_eq!(Limits::default(), Limits::pages(64));
    assert_eq!((Refusal::try_from(5), Refusal::try_from(26).is_err()), (Ok(Refusal::CannotObserve), true));
    assert_eq!(Entry::in_root(Object(7)).to_string(), "#1 #7");
    // (what the kernel tells of a label equals the label that was given, in whatever order)
    let kernel = kernel();
    let boot = kernel.session();
    let (c, d) = (boot.cat_create().unwrap(), boot.cat_create().unwrap());
    let given = label! { d => L3, c => L0; L1 };
    let made = boot.segment_create(ROOT, &given, 1, 0).unwrap();
    assert_eq!(boot.obj_label(Entry::in_root(made)), Ok(given));
}

#[test]
fn labels_are_spelled_as_in_scripts() {
    let label: Label = "{#3:*,#7:0,1}".parse().unwrap();
    assert_eq!(label, label! { Category(3) => Star, Category(7) => L0; L1 });
    assert_eq!(label.to_string(), "{#3:*,#7:0,1}");
    assert_eq!("{1}".parse(), Ok(label! { L1 }));
    for faulty in
        ["", "{", "{}", "{4}", "1", "{#1:2}", "{#x:1,1}", "{#1:1,1", "{1:1,1}", "{#01:1,1}", "{#+1:1,1}", "{#:1,1}"]
    {
        assert!(faulty.parse::<Label>().is_err(), "{faulty}");
    }
    let spelled = |pairs: u64| format!("{{{}1}}", (1..=pairs).map(|c| format!("#{c}:2,")).collect::<String>());
    assert_eq!(spelled(24).parse::<Label>().unwrap().to_string(), spelled(24));
    assert!(spelled(25).parse::<Label>().is_err());
    assert_eq!(Refusal::CannotObserve.to_string(), "5 CannotObserve");
    assert_eq!(Refusal::of(45), Some(Refusal::BadBatch));
    assert_eq!(Refusal::of(26), None);
}

#[test]
fn four_threads_share_a_kernel_by_a_mutex() {
    let kernel = Mutex::new(kernel());
    let create = Call::SegmentCreate { container: ROOT, label: label! { L1 }.into(), quota: 1, pages: 0 };
    let mut made = std::thread::scope(|scope| {
        let work = || -> Vec<u64> {
            let one = |_| match kernel.lock().unwrap().session().call(&create) {
                Ok(Reply::Object(id)) => id.0,
                other => panic!("{other:?}"),
            };
            (0..100).map(one).collect()
        };
        let threads = [(); 4].map(|()| scope.spawn(work));
        threads.into_iter().flat_map(|it| it.join().unwrap()).collect::<Vec<u64>>()
    });
    made.sort_unstable();
    assert_eq!(made, (4..404).collect::<Vec<u64>>());
}
