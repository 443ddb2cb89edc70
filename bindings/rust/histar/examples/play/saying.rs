//! Answers, and what a kernel keeps, as they are printed.
use crate::names::{Names, Value};
use histar::{Category, Entry, Kernel, Label, Level, Object, Refusal, Reply, Rights};

/// What a line answered.
pub enum Answer<'a> {
    Reply(Result<Reply, Refusal>),
    Unbound(&'a str),
    NoThread,
}

pub fn said_label(label: &Label, names: &Names) -> String {
    let pair = |(category, level): &(Category, Level)| format!("{}:{level},", names.said(Value::Category(*category)));
    format!("{{{}{}}}", label.pairs.iter().map(pair).collect::<String>(), label.default)
}

pub fn said_rights(rights: Rights) -> &'static str {
    match (rights.read, rights.write) {
        (false, false) => "-",
        (true, false) => "r",
        (false, true) => "w",
        (true, true) => "rw",
    }
}

pub fn said_reply(reply: &Reply, names: &Names) -> String {
    let object = |id: Object| names.said(Value::Object(id));
    let entry = |it: Entry| format!("{} {}", object(it.container), object(it.object));
    match reply {
        Reply::Done => "ok".to_string(),
        Reply::Category(category) => format!("cat {}", names.said(Value::Category(*category))),
        Reply::Object(id) => format!("id {}", object(*id)),
        Reply::Entered(it) => format!("entered {} {}", it.entry_point, it.closure),
        Reply::Bytes(bytes) => format!("data {}", bytes.iter().map(|byte| format!("{byte:02x}")).collect::<String>()),
        Reply::Own(own) => {
            let [label, clearance, verify] = [&own.label, &own.clearance, &own.verify].map(|it| said_label(it, names));
            format!("self {label} {clearance} {verify} {} {} {}", entry(own.space), own.entry_point, own.closure)
        }
        Reply::Label(label) => format!("label {}", said_label(label, names)),
        Reply::Quota(it) => {
            format!("quota {} {} {} {}", it.quota, it.used, u8::from(it.fixed), u8::from(it.immutable))
        }
        Reply::Listed(list) => {
            let ids = list.ids.iter().map(|id| format!(" {}", object(*id))).collect::<String>();
            format!("list {}{ids}", list.length)
        }
        Reply::Parent(id) => format!("parent {}", object(*id)),
        Reply::Pages(pages) => format!("pages {pages}"),
        Reply::Mapping(None) => "mapping none".to_string(),
        Reply::Mapping(Some(it)) => {
            let rights = said_rights(it.rights);
            format!("mapping {} {} {} {} {rights}", it.page, entry(it.segment), it.first, it.count)
        }
    }
}

pub fn said(answer: &Answer, names: &Names) -> String {
    match answer {
        Answer::Reply(Ok(reply)) => said_reply(reply, names),
        Answer::Reply(Err(refusal)) => format!("refused {refusal}"),
        Answer::Unbound(name) => format!("unbound {name}"),
        Answer::NoThread => "refused 42 NoThread".to_string(),
    }
}

/// A label's place in a list of labels: by its default, and then by its pairs, place by place.
pub fn rank(label: &Label) -> (Level, &[(Category, Level)]) {
    (label.default, &label.pairs)
}

pub fn print_labels(kernel: &Kernel) {
    let none = Names::default();
    let mut labels: Vec<(u16, Label)> = (0..=u16::MAX).filter_map(|it| Some((it, kernel.kept_label(it)?))).collect();
    labels.sort_by(|(_, one), (_, other)| rank(one).cmp(&rank(other)));
    for (place, (_, label)) in labels.iter().enumerate() {
        println!("label {place} {}", said_label(label, &none));
    }
    for (first, (one, _)) in labels.iter().enumerate() {
        for (second, (other, _)) in labels.iter().enumerate() {
            let order = kernel.kept_order(*one, *other).expect("both labels are kept");
            let bits = [order.at_most, order.at_most_raised, order.raised_at_most_raised];
            println!("order {first} {second} {}", u8::from(bits[0]) + 2 * u8::from(bits[1]) + 4 * u8::from(bits[2]));
        }
    }
}

/// Prints what the kernel keeps, as a dump has it.
pub fn print_tables(kernel: &Kernel) {
    let live: Vec<Object> = (0..).map_while(|place| kernel.kept_live(place)).collect();
    for id in &live {
        println!("live {}", id.0);
    }
    for id in &live {
        println!("use {} {}", id.0, kernel.kept_use(*id).expect("a live object uses something"));
    }
    for id in &live {
        for slot in 0..16 {
            if let Some((segment, rights)) = kernel.kept_translation(*id, slot) {
                println!("map {} {slot} {} {}", id.0, segment.0, said_rights(rights));
            }
        }
    }
    print_labels(kernel);
}
