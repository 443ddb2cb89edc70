"""A login gate: its entry function compares a password, and only then the thread that entered gets to a user's data. The kernel hands out
the gate's entry point and closure; the program keeps the table of its functions."""
from dataclasses import dataclass
from typing import Callable

from histar import STAR, Category, Entry, Kernel, Label, Object, Refused, Session


@dataclass
class User:
    """What the program keeps beside the kernel: the category of a user's data, and where they are."""

    category: Category
    data: Entry


def login(client: Session, user: User, closure: int, password: str) -> None:
    """The thread owns the category here. It leaves with 3 in it, which reads the data and can't send them on, or as it came."""
    stored = client.segment_read(Entry.in_root(Object(closure)), 0, 16)
    if stored.split(b"\0")[0] == password.encode():
        client.self_set_label(Label(1, {user.category: 3}))
        return
    client.self_set_label(Label(1))
    client.self_set_clearance(Label(2))


# The functions by their entry points.
ENTRIES: list[Callable[[Session, User, int, str], None]] = [login]


def enter(client: Session, user: User, gate: Entry, password: str) -> None:
    """Enters a gate of this program, and runs its entry function."""
    owner, clearance = Label(1, {user.category: STAR}), Label(2, {user.category: 3})
    entered = client.gate_enter(gate, owner, clearance, Label(3))
    ENTRIES[entered.entry_point](client, user, entered.closure, password)


def new_segment(boot: Session, label: Label, text: bytes) -> Object:
    made = boot.segment_create(Object.ROOT, label, 2, 1)
    boot.segment_write(Entry.in_root(made), 0, text)
    return made


def main() -> None:
    with Kernel(64) as kernel:
        boot = kernel.session()
        category = boot.cat_create()
        guarded = Label(1, {category: 3})
        user = User(category, Entry.in_root(new_segment(boot, guarded, b"mail of ann")))
        password = new_segment(boot, guarded, b"swordfish")
        owner, clearance = Label(1, {category: STAR}), Label(2, {category: 3})
        gate = Entry.in_root(boot.gate_create(Object.ROOT, owner, 1, clearance, Entry.NONE, 0, password.id))
        for typed in ("sword", "swordfish"):
            client = boot.thread_create(Object.ROOT, Label(1), 1, Label(2), 0)
            enter(client, user, gate, typed)
            try:
                print(f"{typed}: reads {client.segment_read(user.data, 0, 11).decode()}")
            except Refused as refused:
                print(f"{typed}: refused {refused.number} {refused.name}")
            try:
                client.dev_send(Entry.in_root(Object.DEVICE), b"mail")
                print(f"{typed}: sends a packet")
            except Refused as refused:
                print(f"{typed}: sends {refused.name}")


if __name__ == "__main__":
    main()
