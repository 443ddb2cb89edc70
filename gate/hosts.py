"""Hosts on one machine: network namespaces of this run's own, joined by a bridge in one more, so that one can be cut off from the others."""
import os
import shutil
import subprocess


def is_made(*words):
    return subprocess.run(words, stdin=subprocess.DEVNULL, stdout=subprocess.DEVNULL, stderr=subprocess.DEVNULL, check=False).returncode == 0


class Loopback:
    """No namespaces: all share the machine's own addresses, and none is cut off."""

    can_cut = False

    def address(self, _):
        return "127.0.0.1"

    def named(self, _):
        return "localhost"

    def on(self, _):
        return []

    def end(self):
        pass


class Hosts:
    """A host for each name. Whoever looks from outside stands in the hub."""

    can_cut = True

    def __init__(self, names):
        self.names = names
        self.space = {it: f"histar-{os.getpid()}-{it}" for it in ("hub", *names)}

    def make(self):
        """Whether the hosts stand: it takes root, and ip of iproute2."""
        hub = self.space["hub"]
        steps = [("ip", "netns", "add", hub), ("ip", "-n", hub, "link", "add", "bridge", "type", "bridge"),
                 ("ip", "-n", hub, "address", "add", f"{self.address('hub')}/24", "dev", "bridge"), ("ip", "-n", hub, "link", "set", "bridge", "up")]
        for it in self.names:
            own = self.space[it]
            steps += [("ip", "netns", "add", own), ("ip", "-n", hub, "link", "add", it, "type", "veth", "peer", "name", "own", "netns", own),
                      ("ip", "-n", hub, "link", "set", it, "master", "bridge", "up"), ("ip", "-n", own, "address", "add", f"{self.address(it)}/24", "dev", "own"),
                      ("ip", "-n", own, "link", "set", "own", "up"), ("ip", "-n", own, "link", "set", "lo", "up")]
        if all(is_made(*it) for it in steps):
            self.tell_names()
            return True
        self.end()
        return False

    def address(self, name):
        return f"10.77.0.{100 if name == 'hub' else 1 + self.names.index(name)}"

    def named(self, name):
        return name

    def tell_names(self):
        """Each host knows the others by their names: ip puts this file into the place of /etc/hosts."""
        lines = "".join(f"{self.address(it)} {it}\n" for it in self.names)
        for it in self.space.values():
            os.makedirs(f"/etc/netns/{it}", exist_ok=True)
            with open(f"/etc/netns/{it}/hosts", "w", encoding="utf-8") as out:
                out.write(f"127.0.0.1 localhost\n{lines}")

    def on(self, name):
        """What stands before the words of a program that runs on a host."""
        return ["ip", "netns", "exec", self.space[name]]

    def cut(self, name, is_cut):
        is_made("ip", "-n", self.space["hub"], "link", "set", name, "down" if is_cut else "up")

    def end(self):
        for it in self.space.values():
            is_made("ip", "netns", "delete", it)
            shutil.rmtree(f"/etc/netns/{it}", ignore_errors=True)


def hosts_for(names):
    made = Hosts(names)
    return made if made.make() else Loopback()
