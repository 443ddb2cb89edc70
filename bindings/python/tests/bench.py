"""What calls take in a process of Python: the least of five times, in microseconds."""
import timeit

from histar import Entry, Kernel, Label, Object, Seat

COUNT = 20_000


def main():
    for name, holder in (("kernel", Kernel(64)), ("seat", Seat(64))):
        boot = holder.session()
        note = Entry.in_root(boot.segment_create(Object.ROOT, Label(1), 2, 1))
        boot.segment_write(note, 0, b"sixteen bytes it")
        for what, act in (
            ("segment_read of 16 bytes", lambda: boot.segment_read(note, 0, 16)),
            ("segment_write of 16 bytes", lambda: boot.segment_write(note, 0, b"sixteen bytes it")),
            ("segment_len", lambda: boot.segment_len(note)),
        ):
            print(f"{name}: {what}: {min(timeit.repeat(act, number=COUNT, repeat=5)) / COUNT * 1e6:.2f}")


if __name__ == "__main__":
    main()
