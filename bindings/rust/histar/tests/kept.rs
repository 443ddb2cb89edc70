//! What the kernel keeps, looked up.
use histar::{label, Entry, Kernel, Label, Limits, Mapping, Object, Order, Rights};

/// The index of a label among the first hundred.
fn index_of(kernel: &Kernel, label: &Label) -> u16 {
    (0..100).find(|index| kernel.kept_label(*index).as_ref() == Some(label)).expect("the label is stored")
}

#[test]
fn what_is_kept_is_what_calls_made() {
    let kernel = Kernel::boot_with(&Limits { next_id: 9, ..Limits::pages(64) }).unwrap();
    let boot = kernel.session();
    let c = boot.cat_create().unwrap();
    let guarded = label! { c => L3; L1 };
    let segment = boot.segment_create(Object::ROOT, &guarded, 4, 2).unwrap();
    let space = boot.as_create(Object::ROOT, &label! { L1 }, 1).unwrap();
    let mapping = Mapping { page: 0, segment: Entry::in_root(segment), first: 0, count: 1, rights: Rights::READ_WRITE };
    boot.as_map(Entry::in_root(space), 5, mapping).unwrap();
    assert_eq!(kernel.kept_translation(boot.id(), 5), None);
    boot.self_set_as(Entry::in_root(space)).unwrap();
    assert_eq!(kernel.kept_translation(boot.id(), 5), Some((segment, Rights::READ_WRITE)));
    assert_eq!(kernel.kept_translation(boot.id(), 4), None);

    let live: Vec<u64> = (0..9).map_while(|place| kernel.kept_live(place)).map(|id| id.0).collect();
    assert_eq!(live, [1, 2, 3, 9, 10]);
    assert_eq!(kernel.kept_use(segment), Some(3));
    assert_eq!(kernel.kept_use(Object(8)), None);

    let plain = index_of(&kernel, &label! { L1 });
    let high = index_of(&kernel, &guarded);
    let below = Order { at_most: true, at_most_raised: true, raised_at_most_raised: true };
    let above = Order { at_most: false, at_most_raised: false, raised_at_most_raised: false };
    assert_eq!(kernel.kept_order(plain, high), Some(below));
    assert_eq!(kernel.kept_order(high, plain), Some(above));
    assert_eq!(kernel.kept_order(high, 9999), None);
    boot.unref(Entry::in_root(segment)).unwrap();
    assert_eq!(kernel.kept_use(segment), None);
    assert_eq!(kernel.kept_translation(boot.id(), 5), None);
}
