//! A login gate: its entry function compares a password, and only then the thread that entered gets to a user's data. The kernel
//! hands out the gate's entry point and closure; the program keeps the table of its functions.
use histar::{label, Category, Entry, Kernel, Label, NewGate, Object, Refused, Session};

/// What the program keeps beside the kernel: the category of a user's data, and where they are.
struct User {
    category: Category,
    data: Entry,
}

/// What runs when a thread has entered a gate: it is handed the gate's closure.
type EntryFunction = fn(&Session<'_>, &User, u64, &str) -> Result<(), Refused>;

/// The functions by their entry points.
const ENTRIES: [EntryFunction; 1] = [login];

/// The thread owns the category here. It leaves with 3 in it, which reads the data and can't send them on, or as it came.
fn login(client: &Session<'_>, user: &User, closure: u64, password: &str) -> Result<(), Refused> {
    let stored = client.segment_read(Entry::in_root(Object(closure)), 0, 16)?;
    if stored.split(|byte| *byte == 0).next() == Some(password.as_bytes()) {
        return client.self_set_label(&label! { user.category => L3; L1 });
    }
    client.self_set_label(&label! { L1 })?;
    client.self_set_clearance(&label! { L2 })
}

/// Enters a gate of this program, and runs its entry function.
fn enter(client: &Session<'_>, user: &User, gate: Entry, password: &str) -> Result<(), Refused> {
    let owner = label! { user.category => Star; L1 };
    let clearance = label! { user.category => L3; L2 };
    let entered = client.gate_enter(gate, &owner, &clearance, &label! { L3 })?;
    ENTRIES[entered.entry_point as usize](client, user, entered.closure, password)
}

fn new_segment(boot: &Session<'_>, label: &Label, text: &str) -> Result<Object, Refused> {
    let made = boot.segment_create(Object::ROOT, label, 2, 1)?;
    boot.segment_write(Entry::in_root(made), 0, text.as_bytes())?;
    Ok(made)
}

fn main() -> Result<(), Refused> {
    let kernel = Kernel::boot(64)?;
    let boot = kernel.session();
    let category = boot.cat_create()?;
    let guarded = label! { category => L3; L1 };
    let user = User { category, data: Entry::in_root(new_segment(&boot, &guarded, "mail of ann")?) };
    let password = new_segment(&boot, &guarded, "swordfish")?;
    let (owner, clearance) = (label! { category => Star; L1 }, label! { category => L3; L2 });
    let gate = NewGate { entry_point: 0, closure: password.0, ..NewGate::new(&owner, &clearance) };
    let gate = Entry::in_root(boot.gate_create(&gate)?);

    for password in ["sword", "swordfish"] {
        let client = boot.thread_create(Object::ROOT, &label! { L1 }, 1, &label! { L2 }, 0)?;
        enter(&client, &user, gate, password)?;
        match client.segment_read(user.data, 0, 11) {
            Ok(read) => println!("{password}: reads {}", String::from_utf8_lossy(&read)),
            Err(refused) => println!("{password}: refused {}", refused.reason),
        }
        match client.dev_send(Entry::in_root(Object::DEVICE), b"mail") {
            Ok(()) => println!("{password}: sends a packet"),
            Err(refused) => println!("{password}: sends {:?}", refused.reason),
        }
    }
    Ok(())
}
