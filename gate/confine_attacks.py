"""More scenes of confine: what Linux lets a process do to a file, a descriptor or itself that another sees, and what a program asks
the machine for. Each is also played without confine, where it has to be seen."""
from gate.confine_scenes import GATES, ONE, OPEN, POLICY, READ, SECOND, SECRET, TWO, Scene


def perl(text):
    """A program in perl, which has the secret in $k."""
    return f"perl -MSocket -MFcntl -e '{text}'"


def knows(text):
    """A program in perl that does something once it has read the secret, and waits while others look."""
    return perl('open(K,"<","$ENV{S}/key"); $k=<K>; ' + text + "; select(undef,undef,undef,0.3)")


def opens(place):
    return f'open(F,"{place}") or die; '


# By a report: its file, its name and its descriptor.
TO_REPORT = opens('>>$ENV{R}')
REPORTS = (
    Scene("makes its report readable by a descriptor", knows(TO_REPORT + "chmod(0644,*F)"), leaks="report rights"),
    Scene("makes its report readable by a name", knows(TO_REPORT + 'chmod(0644,"$ENV{R}")'), leaks="report rights"),
    Scene("makes its report readable by /proc", knows(TO_REPORT + 'chmod(0644,"/proc/self/fd/".fileno(F))'), leaks="report rights"),
    Scene("makes its report run as its owner", knows(TO_REPORT + "chmod(06755,*F)"), leaks="report rights"),
    Scene("tells by its report's time, by a descriptor", knows(TO_REPORT + "utime(14,14,*F)"), leaks="report time"),
    Scene("tells by its report's time, by a name", knows(TO_REPORT + 'utime(14,14,"$ENV{R}")'), leaks="report time"),
    Scene("tells by its report's time, by /proc", knows(TO_REPORT + 'utime(14,14,"/proc/self/fd/".fileno(F))'), leaks="report time"),
    Scene("tells by a lock of its report", knows(TO_REPORT + "flock(F,2)"), leaks="report lock"),
    Scene("tells by a lease of its report", knows(opens("<$ENV{R}") + "fcntl(F,1024,0)"), leaks="report lease"),
    Scene("tells by a hint to its report", knows(TO_REPORT + '$h=pack("Q",3); fcntl(F,1036,$h)'), leaks="report hint"),
    Scene("tells by its report's length while it runs", knows(TO_REPORT + "truncate(F,4242)") + "; : > $R", leaks="report length"),
    Scene("tells by a second name of its report", READ + "ln $R $P/$k", leaks="names", status=None),
    Scene("moves its report to what is public", READ + "echo $k > $R; mv $R $P/taken; : > $R", leaks="text", status=None),
    Scene("takes its report's name away while it runs", READ + "rm $R; sleep 0.3; : > $R", leaks="report gone"),
    Scene("writes a report of no secret by a rename", READ + "echo $k > /tmp/new$$; mv /tmp/new$$ $Q", words=OPEN, leaks="text", status=None),
    Scene("writes a report of no secret by a link", READ + "echo $k > $Q", words=OPEN, leaks="text", status=None),
    Scene("links a report of no secret to its own file", READ + "rm -f $Q; echo $k > /tmp/own$$; ln -s /tmp/own$$ $Q; cat $Q > /dev/null", words=OPEN, leaks="open", status=None),
    Scene("makes a report of no secret writable and writes it", READ + "chmod 600 $Q; ln -s $Q /tmp/l$$; echo $k > /tmp/l$$", words=OPEN, leaks="text", status=None),
)

# What stands outside, before the program begins.
TEXT_OUT = READ + "echo $k > $R; sleep 0.3; : > $R"
OUTSIDE = (
    Scene("empties its report while it runs", READ + ": > $R; sleep 0.3; echo new > $R", report="new\n", old="old\n", leaks="report emptied"),
    Scene("adds to what its report had", READ + "echo $k >> $R", report=f"old\n{SECRET}\n", old="old\n"),
    Scene("leaves no plain file in its report's place", READ + "rm -f $R; mkfifo $R", status=0),
    Scene("leaves no plain file in its report's place, and has read nothing", "rm -f $R; mkfifo $R", status=70),
    Scene("prints what its user has in the environment", "echo ${KEPT:-none}", printed="none\n", leaks="own"),
    Scene("has a home of its own", "echo $HOME $TMPDIR; cd; pwd", printed="/tmp /tmp\n/tmp\n"),
    Scene("writes a report that has a name in what is public", TEXT_OUT, status=2, laid='ln -f "$R" "$P/link"', is_noted=False, leaks="report linked"),
    Scene("writes a report that all may read", READ + "echo $k > $R; sleep 0.3", report=SECRET + "\n", laid='chmod 644 "$R"', leaks="report readable"),
    Scene("reads a secret that is mounted in what is public", "cat $P/in/key", status=2, laid='mkdir "$P/in"; mount --bind "$S" "$P/in"', is_noted=False, leaks="text"),
    Scene("reads a secret that is mounted as what is public", "cat $P/key", status=2, laid='mount --bind "$S" "$P"', is_noted=False, leaks="text"),
    Scene("tells by a lock in what is mounted in what is public", knows(opens("<$ENV{P}/in/own") + "flock(F,2)"), status=2, laid='mkdir "$P/in"; mount --bind "$O" "$P/in"', is_noted=False, leaks="own lock"),
    Scene("has a mount in a secret", "cat $S/key > $R", status=2, laid='mount --bind "$O/own" "$S/key"'),
    Scene("reads a secret that is mounted in /usr", "cat /usr/share/man/key", status=2, laid='mount --bind "$S" /usr/share/man', is_noted=False, leaks="text"),
)

# By a public file: what is kept with the file, and not in it.
OF_PUBLIC = opens("<$ENV{P}/text")
INODES = (
    Scene("tells by a lock of a public file", knows(OF_PUBLIC + "flock(F,2)"), leaks="lock"),
    Scene("tells by a lock of part of a public file", knows(OF_PUBLIC + '$l=pack("s s l! l! i",0,0,0,9,0); fcntl(F,F_SETLK,$l)'), leaks="part lock"),
    Scene("tells by a lease of a public file", knows(OF_PUBLIC + "fcntl(F,1024,0)"), leaks="lease"),
    Scene("tells by a hint to a public file", knows(OF_PUBLIC + '$h=pack("Q",3); fcntl(F,1036,$h)'), leaks="hint"),
    Scene("tells by the rights of a public file's descriptor", knows(OF_PUBLIC + "chmod(0606,*F)"), leaks="rights"),
    Scene("tells by the rights of a public file by /proc", knows(OF_PUBLIC + 'chmod(0606,"/proc/self/fd/".fileno(F))'), leaks="rights"),
    Scene("tells by the time of a public file's descriptor", knows(OF_PUBLIC + "utime(14,14,*F)"), leaks="time"),
    Scene("wakes who waits at a public file", knows(OF_PUBLIC + "$m=syscall(9,0,4096,1,1,fileno(F),0); for (1..40) { syscall(202,$m,1,100,0,0,0); select(undef,undef,undef,0.01) }"), leaks="waking"),
    Scene("waits at a public file", knows(OF_PUBLIC + '$t=pack("qq",0,300000000); $m=syscall(9,0,4096,1,1,fileno(F),0); $w=unpack("L",unpack("P4",pack("Q",$m))); syscall(202,$m,0,$w,$t,0,0)'), leaks="waiting"),
    Scene("sends a packet to a public socket", knows('socketpair(A,B,AF_UNIX,SOCK_DGRAM,0) or exit; send(A,$k,0,pack_sockaddr_un("$ENV{P}/socket"))'), leaks="packet"),
    Scene("connects to a public socket", knows('socket(A,AF_UNIX,SOCK_DGRAM,0) or exit; connect(A,pack_sockaddr_un("$ENV{P}/socket")); syswrite(A,$k)'), leaks="packet"),
    Scene("writes into a public pipe by a link", READ + "ln -s $P/pipe /tmp/p$$; (echo $k > /tmp/p$$) & sleep 0.3; kill $!; rm -f /tmp/p$$", leaks="text", status=None),
    Scene("writes into a public pipe by a relative path", READ + "cd $P; (echo $k > pipe) & sleep 0.3; kill $! 2>/dev/null", leaks="text", status=None),
    Scene("writes into a public pipe below /tmp", READ + "(echo $k > $M/pipe) & sleep 0.3; kill $! 2>/dev/null", words=[*ONE, "--public", "$M"], leaks="text", status=None),
    Scene("writes into a public pipe below /tmp by a link", READ + "ln -s $M/pipe /tmp/q$$; (echo $k > /tmp/q$$) & sleep 0.3; kill $! 2>/dev/null; rm -f /tmp/q$$", words=[*ONE, "--public", "$M"], leaks="text", status=None),
    Scene("sends a packet to a public socket below /tmp", knows('socketpair(A,B,AF_UNIX,SOCK_DGRAM,0) or exit; send(A,$k,0,pack_sockaddr_un("$ENV{M}/socket"))'), words=[*ONE, "--public", "$M"], leaks="packet below"),
    Scene("renames a public file", READ + "mv $P/text $P/$k; mv $P/$k $P/text; mv $P/text $P/$k", leaks="names", status=None),
    Scene("takes a public file away", READ + "rm -f $P/text", leaks="gone", status=None),
    Scene("cuts a public file", READ + ": > $P/text", leaks="cut", status=None),
    Scene("makes a folder in what is public", READ + "mkdir $P/$k", leaks="names", status=None),
    Scene("makes a link in what is public", READ + "ln -s $k $P/link", leaks="names", status=None),
    Scene("makes a pipe in what is public", READ + "mkfifo $P/$k", leaks="names", status=None),
    Scene("writes into a folder that nobody named", READ + "echo $k > $O/new", leaks="names", status=None),
    Scene("writes below the home of its report", READ + "echo $k > $H/$k", leaks="names", status=None),
)


def asks(number, *arguments):
    """A system call by its number: it prints 1 where the machine's kernel does it, or looks at its arguments, and p where the kernel
    says that the program may not."""
    call = ",".join(map(str, (number, *arguments)))
    return perl(f'$!=0; $r=syscall({call}); print $r>=0 || ($!!=38 && $!!=1 && $!!=95) ? 1 : $! == 1 ? "p" : 0')


# What the machine has for calls that nobody needs here: 1 is printed where they are there. (Root alone may make some.)
MEANS = tuple(
    Scene(f"asks for {what}", asks(*call), printed="0", leaks="means", users=users)
    for what, call, users in (
        ("a ring of calls", (425, 1, 0), (0, 1)),
        ("shared memory of the machine", (29, 0, 4096, 0o1600), (0, 1)),
        ("a semaphore of the machine", (64, 0, 0, 0o1600), (0, 1)),
        ("a queue of messages", (71, -1, 2, 0), (0, 1)),
        ("a process's memory", (310, "$$", 0, 0, 0, 0, 0), (0, 1)),
        ("writing a process's memory", (311, "$$", 0, 0, 0, 0, 0), (0, 1)),
        ("a trace", (101, 0, 0, 0, 0), (0, 1)),
        ("a filter of its own", (317, 2, 0, 0), (0, 1)),
        ("a filter by prctl", (157, 22, 2, 0), (0, 1)),
        ("a filter by prctl with an upper half", (157, 22 + (1 << 32), 2, 0), (0, 1)),
        ("a lease with an upper half", (72, 0, 1025 + (1 << 32), 0), (0, 1)),
        ("a name by a handle", (303, -100, "$p=q(/tmp)", "$h=pack(q(LLx128),128,0)", "$m=pack(q(i),0)", 0), (0, 1)),
        ("a file by a handle", (304, -1, "$h=pack(q(LLx128),128,0)", 0), (0,)),
        ("typed characters for a terminal", (16, 0, 0x5412, "$c=q(x)"), (0, 1)),
        ("typed characters for a terminal with an upper half", (16, 0, 0x5412 + (1 << 32), "$c=q(x)"), (0, 1)),
        ("openat2", (437, -100, "$p=q(/usr)", "$h=pack(q(QQQ),0,0,0)", 24), (0, 1)),
        ("a descriptor of another", (438, 0, 0, 0), (0, 1)),
        ("a descriptor of a process", (434, "$$", 0), (0, 1)),
        ("a comparison of processes", (312, "$$", "$$", 1, 0, 0), (0, 1)),
        ("its own watch of memory", (323, 1), (0, 1)),
        ("a socket of the internet", (41, 2, 1, 0), (0, 1)),
        ("a socket of packets", (41, 2, 2, 0), (0, 1)),
        ("a socket with a name", (41, 1, 1, 0), (0, 1)),
        ("a socket to the machine's kernel", (41, 16, 3, 0), (0, 1)),
        ("a pair of packet sockets", (53, 1, 2, 0, "$s=pack(q(ii),0,0)"), (0, 1)),
        ("a user's namespace", (272, 0x10000000), (0, 1)),
        ("a process by clone3", (435, "$c=pack(q(Q11))", 8), (0, 1)),
        ("two waits at once", (449, 0, 0, 0, 0, 0), (0, 1)),
        ("a robust list", (273, 0, 24), (0, 1)),
        ("another memory for a file", (447, 0), (0, 1)),
        ("a mount", (165, "$a=q(none)", "$b=q(/tmp)", "$c=q(none)", 4096, 0), (0,)),
        ("another root", (161, "$p=q(/usr)"), (0,)),
        ("a program in the machine's kernel", (321, 0, "$a=pack(q(LLLLx56),2,4,4,1)", 72), (0,)),
        ("counters of the processor", (298, 0, 0, -1, -1, 0), (0,)),
        ("a watch over all files", (300, 0, 0), (0,)),
        ("a mount's tree", (428, -100, "$p=q(/usr)", 0), (0, 1)),
        ("a move of a mount", (429, -1, "$p=q()", -1, "$q=q()", 0), (0,)),
        ("a file system of its own", (430, "$p=q(none)", 0), (0,)),
        ("a file system's settings", (431, -1, 0, 0, 0, 0), (0, 1)),
        ("a mount of a file system", (432, -1, 0, 0), (0,)),
        ("a look at a mount's settings", (433, -1, "$p=q()", 0), (0,)),
        ("other settings of a mount", (442, -1, "$p=q()", 0, "$s=pack(q(Q4),0,0,0,0)", 32), (0,)),
        ("an unmount", (166, "$p=q(/no)", 0), (0, 1)),
        ("a namespace of another", (308, -1, 0), (0, 1)),
        ("another name of the machine", (170, "$p=q()", -1), (0,)),
        ("a queue of reads", (206, 1, "$c=pack(q(Q),0)"), (0, 1)),
        ("a queue of messages with a name", (240, "$p=q(no)", 0, 0, 0), (0, 1)),
        ("a key", (248, 0, 0, 0, 0, 0), (0, 1)),
        ("a key of another", (249, 0, 0, 0, 0), (0, 1)),
        ("a keyring of its own", (250, 0, -3, 0), (0, 1)),
        ("the machine's log", (103, 10, 0, 0), (0,)),
        ("the pace of the machine's clock", (159, "$t=pack(q(Q26))"), (0, 1)),
        ("the pace of another clock", (305, 0, "$t=pack(q(Q26))"), (0, 1)),
        ("where its memory lies", (239, 0, 0, 0, 0, 0), (0, 1)),
        ("another place for its memory", (238, 0, 0, 0), (0, 1)),
        ("moves of pages", (279, "$$", 0, 0, 0, 0, 0), (0, 1)),
        ("moves of another's pages", (256, "$$", 0, 0, 0), (0, 1)),
        ("the rank of its reads", (252, 1, 0), (0, 1)),
        ("another rank of its reads", (251, 1, 0, 0), (0, 1)),
        ("deadlines", (314, 0, "$a=pack(q(LLQlLQQQ),48,0,0,0,0,0,0,0)", 0), (0, 1)),
        ("a signal by a descriptor", (424, -1, 0, 0, 0), (0, 1)),
        ("advice on another's memory", (440, -1, 0, 0, 0, 0), (0, 1)),
        ("another's memory back", (448, -1, 0), (0, 1)),
        ("rules of its own for files", (444, 0, 0, 1), (0, 1)),
        ("a program by a descriptor", (322, -1, "$p=q()", 0, 0, 4096), (0, 1)),
        ("bounds of the disk", (179, 0, 0, 0, 0), (0, 1)),
        ("a list of file systems", (139, 3), (0, 1)),
        ("who has a robust list", (274, 0, 0, 0), (0, 1)),
        ("pages in another order", (216, 0, 0, 0, 0, 0), (0, 1)),
        ("a socket for packets of its own", (41, 1, 2, 0), (0, 1)),
        ("a name for a socket", (49, -1, 0, 0), (0, 1)),
        ("a socket that listens", (50, -1, 0), (0, 1)),
        ("a connection", (42, -1, 0, 0), (0, 1)),
        ("a connection of another", (43, -1, 0, 0), (0, 1)),
        ("a tracer by prctl", (157, 0x59616D61, -1, 0), (0, 1)),
        ("another map of its memory by prctl", (157, 35, 1, 0), (0, 1)),
        ("notes of a folder by fcntl", (72, 0, 1026, 0), (0, 1)),
        ("a part of shared memory", (30, -1, 0, 0), (0, 1)),
        ("the settings of shared memory", (31, -1, 0, 0), (0, 1)),
        ("a step of a semaphore", (65, -1, "$s=pack(q(sss),0,0,0)", 1), (0, 1)),
        ("the settings of a semaphore", (66, -1, 0, 0), (0, 1)),
        ("shared memory back", (67, 1), (0, 1)),
        ("a message for a queue", (69, -1, "$m=pack(q(qx8),1)", 0, 0), (0, 1)),
        ("a message of a queue", (70, -1, "$m=pack(q(qx8),1)", 0, 0, 0), (0, 1)),
        ("rights of its own", (126, "$h=pack(q(LL),0,0)", 0), (0, 1)),
        ("an old look at a file system", (136, 0, "$u=pack(q(x64))"), (0, 1)),
        ("a rank among processes", (142, -1, 0), (0, 1)),
        ("its share of time", (148, 0, "$t=pack(q(QQ),0,0)"), (0, 1)),
        ("its memory for good", (151, 0), (0, 1)),
        ("its memory no more for good", (152,), (0, 1)),
        ("segments of its own", (154, 0, "$l=pack(q(x64))", 64), (0, 1)),
        ("another time of day", (164, 1, 0), (0, 1)),
        ("an end of a queue of reads", (207, 0), (0, 1)),
        ("what a queue of reads has done", (208, 0, 0, 0, 0, 0), (0, 1)),
        ("a read for a queue", (209, 0, 0, 0), (0, 1)),
        ("a read less in a queue", (210, 0, "$p=pack(q(x64))", "$q=pack(q(x64))"), (0, 1)),
        ("a step of a semaphore in time", (220, -1, "$s=pack(q(sss),0,0,0)", 1, 0), (0, 1)),
        ("another time of a clock", (227, 99, 0), (0, 1)),
        ("a place for some memory", (237, 1, 0, 0, 0, 0, 0), (0, 1)),
        ("a queue's name less", (241, "$p=q(no)"), (0, 1)),
        ("a message for a named queue", (242, -1, "$m=q(x)", 1, 0, 0), (0, 1)),
        ("a message of a named queue", (243, -1, "$m=q(x)", 1, 0, 0), (0, 1)),
        ("a note of a named queue", (244, -1, 0), (0, 1)),
        ("the settings of a named queue", (245, -1, 0, 0), (0, 1)),
        ("an old watch of folders", (253,), (0, 1)),
        ("a watch of folders", (294, 0), (0, 1)),
        ("a folder more to watch", (254, -1, "$p=q(/usr)", 1), (0, 1)),
        ("a folder less to watch", (255, -1, 1), (0, 1)),
        ("what of its files is in memory", (27, 1, 0, 0), (0, 1)),
        ("old signals by a descriptor", (282, -1, "$m=pack(q(Q),0)", 8), (0, 1)),
        ("a connection of another, with flags", (288, -1, 0, 0, 0), (0, 1)),
        ("many messages", (299, -1, "$m=pack(q(x64))", 1, 0, 0), (0, 1)),
        ("a mark of a watch over files", (301, -1, 0, 0, 0, 0), (0, 1)),
        ("a file system on the disk", (306, -1), (0, 1)),
        ("many messages at once", (307, -1, "$m=pack(q(x64))", 1, 0), (0, 1)),
        ("its rank among processes", (315, 0, "$a=pack(q(x48))", 48, 0), (0, 1)),
        ("what a queue of reads has done, with signals", (333, 0, 0, 0, 0, 0, 0), (0, 1)),
        ("a turn of a ring of calls", (426, -1, 0, 0, 0, 0, 0), (0, 1)),
        ("what a ring of calls has", (427, -1, 0, 0, 0), (0, 1)),
        ("bounds of a disk by a file", (443, -1, 0, 0, 0), (0, 1)),
        ("a rule more for files", (445, -1, 1, 0, 0), (0, 1)),
        ("a home for its memory", (450, 1, 0, 0, 0), (0, 1)),
        ("a root in another's place", (155, "$p=q(/no)", "$q=q(/no)"), (0,)),
        ("a list of what ran", (163, "$p=q(/no/such)"), (0,)),
        ("a place to swap to", (167, "$p=q(/no/such)", 0), (0,)),
        ("a place to swap to back", (168, "$p=q(/no/such)"), (0,)),
        ("an end of the machine", (169, 0, 0, 0, 0), (0,)),
        ("another domain of the machine", (171, "$p=q()", -1), (0,)),
        ("its own rules for files at work", (446, -1, 0), (0,)),
    )
)

# Who is held to what: bounds, and what is given to others.
HELD = (
    Scene("keeps its bound of cores", perl("print syscall(160,4,$l=pack(q(QQ),0,0))<0 ? 0 : 1"), printed="0", leaks="means"),
    Scene("keeps its bound of cores by prlimit", perl("print syscall(302,0,4,$l=pack(q(QQ),0,0),0)<0 ? 0 : 1"), printed="0", leaks="means"),
    Scene("keeps its bound of cores with an upper half", perl("print syscall(302,0,4+(1<<32),$l=pack(q(QQ),0,0),0)<0 ? 0 : 1"), printed="0", leaks="means"),
    Scene("asks how large a core may be", "ulimit -Hc", printed="0\n"),
    Scene("has no bound of open files to change", "ulimit -n 64 && ulimit -n", printed="64\n"),
    Scene("writes more than a file may have", "head -c 1100000000 /dev/zero > /tmp/much 2>/dev/null; stat -c %s /tmp/much", printed="1073741824\n", status=None),
    Scene("uses its memory up", "perl -e '$x=q(x) x 9_000_000_000' 2>/dev/null || echo no", printed="no\n"),
    Scene("starts many processes, one after another", "for i in $(seq 600); do /bin/true; done; echo done", printed="done\n"),
)

# What a label keeps apart.
REFUSED = "--explain tells why"
LABELS = (
    Scene("is refused a report, and keeps its own", READ + "echo x > $U; echo $k > $R", report=SECRET + "\n", words=TWO, told=f"report2; {REFUSED}"),
    Scene("is refused a secret by what it holds, and is told", "exec 5> $Q; cat $S/key; echo done", words=OPEN, printed="done\n", told=f"secret; {REFUSED}"),
    Scene("looks at a secret's folder and goes on", "ls -ld $S; ls -l $H; test -r $S && echo hello", printed=None, told=None, words=ONE),
    Scene("looks at a secret's folder and prints", "test -d $S && echo hello", printed="hello\n"),
    Scene("goes into a secret's folder and prints", "cd $S; echo hello"),
    Scene("lists a secret's folder and prints", "ls $S"),
    Scene("looks at a file of a secret and prints", "test -f $S/key && echo hello"),
    Scene("opens a secret by a link to its folder", "ln -s $S /tmp/l; ls /tmp/l; cat /tmp/l/key 2>/dev/null; echo hello", printed=None, status=None),
    Scene("moves a secret's place", "mv $S $H/else 2>/dev/null; cat $H/else/key 2>/dev/null; cat $S/key > $R", report=SECRET + "\n"),
    Scene("removes a secret's place", "rmdir $S 2>/dev/null; cat $S/key > $R", report=SECRET + "\n"),
    Scene("puts its own folder where a secret is", "mkdir -p $S 2>/dev/null; echo x > $S/key 2>/dev/null; cat $S/key > $R", report=SECRET + "\n"),
    Scene("moves a public folder and puts its own there", "mv $P $H/else 2>/dev/null; mkdir $P 2>/dev/null; cat $P/text", printed="for-everyone\n"),
    Scene("writes the other's secret to a report by a rename", READ + "cat $T/key > /tmp/x$$; mv /tmp/x$$ $R", words=TWO, status=None, leaks="other report", is_noted=False),
    Scene("writes a report, and then the secret is refused to the other", "echo x > $R; cat $T/key > $U", report="x\n", words=TWO),
    Scene("hands a report's file to what reads another secret", "exec 5>> $R; (cat $T/key >&5) 2>/dev/null; echo done >&5", report="done\n", words=TWO, leaks="other report"),
    Scene("is refused by a gate, and is told", READ + "j=$(cat $T/key); echo $k > /gate/count", policy=GATES, told=f"count; {REFUSED}"),
    Scene("tells by the errors of a gate with a file", "echo $(cat $S/key) | cat > /gate/noisy", policy=GATES.replace("broken", "noisy").replace('["/no/such/program"]', '["sh", "-c", "cat >&2"]\nfile = "report"'), report=SECRET + "\n"),
    Scene("tells by the failure of a gate with a file", "echo $(cat $S/key) > /gate/failing", policy=GATES.replace("broken", "failing").replace('["/no/such/program"]', '["false"]\nfile = "report"'), report="confine: the gate failing failed\n"),
    Scene("writes a report of a lower label", READ + "echo $k > $Q", policy=POLICY, status=None, told=f"open; {REFUSED}", leaks="text"),
)

# Programs that a program starts at a label.
WITHHELD = "some of what a program printed that was started at a label is withheld"
BOTH = f"start\n{SECRET}\n{SECOND}\n"
STARTS = (
    Scene("starts at a label and stays clean", "confine-run first -- cat $S/key > /gate/lines; echo clean", printed="clean\n", open="1\n", policy=GATES),
    Scene("starts at a label and prints what that prints", "confine-run first -- cat $S/key; echo clean", printed="clean\n", policy=POLICY, told=WITHHELD, leaks="text"),
    Scene("starts at a label and reads its errors", "confine-run first -- sh -c 'cat $S/key >&2' 2>&1; echo clean", printed="clean\n", policy=POLICY, told=WITHHELD, leaks="text"),
    Scene("starts at a label and reads by a pipe", "confine-run first -- cat $S/key | cat; echo clean", printed="clean\n", policy=POLICY, told=WITHHELD, leaks="text"),
    Scene("starts at a label and reads by a file", "confine-run first -- cat $S/key > /tmp/x$$; cat /tmp/x$$; rm /tmp/x$$; echo clean", printed="clean\n", policy=POLICY, told=WITHHELD, leaks="text"),
    Scene("starts at a label, which writes a report", "confine-run first -- sh -c 'cat $S/key > $R'; echo clean", printed="clean\n", report=SECRET + "\n", policy=POLICY),
    Scene("starts at a label and looks at its status", "confine-run first -- sh -c 'exit 7'; echo $?", printed="0\n", policy=POLICY),
    Scene("starts at a label and looks when it ends", "a=$(date +%s); confine-run first -- sleep 6; b=$(date +%s); [ $((b-a)) -lt 6 ] && echo at once", printed="at once\n", policy=POLICY),
    Scene("starts at a label and looks when its pipe ends", "a=$(date +%s); confine-run first -- sleep 6 | cat; b=$(date +%s); [ $((b-a)) -lt 6 ] && echo at once", printed="at once\n", policy=POLICY),
    Scene("starts at a label and looks whether it reads", "a=$(date +%s); head -c 1000000 /dev/zero | confine-run first -- sleep 6; b=$(date +%s); [ $((b-a)) -lt 6 ] && echo at once", printed="at once\n", policy=POLICY),
    Scene("starts at no label and knows its status", "confine-run none -- sh -c 'exit 7'; echo $?", printed="7\n", policy=POLICY),
    Scene("starts at no label and hands it much", "head -c 1000000 /dev/zero | confine-run none -- wc -c", printed="1000000\n", policy=POLICY),
    Scene("starts what reads a secret later", "confine-run none -- sh -c 'echo before; cat $S/key; exit 3'; echo $?", printed="before\n0\n", policy=POLICY, told=WITHHELD, leaks="text"),
    Scene("starts what reads a secret later and writes its report", "confine-run none -- sh -c 'cat $S/key > $R'; echo clean", printed="clean\n", report=SECRET + "\n", policy=POLICY),
    Scene("joins programs at two labels", "confine-run first -- cat $S/key | confine-run first,second -- sh -c 'cat - $T/key > $U'; echo clean", printed="clean\n", second=f"{SECRET}\n{SECOND}\n", policy=POLICY),
    Scene("joins programs at three labels", "echo start | confine-run none -- cat | confine-run first -- cat - $S/key | confine-run first,second -- sh -c 'cat - $T/key > $U'; echo clean", printed="clean\n", second=BOTH, policy=POLICY),
    Scene("joins programs the wrong way", "confine-run first -- cat $S/key | confine-run second -- sh -c 'cat - > /tmp/x$$; cat /tmp/x$$ $T/key > $U; rm /tmp/x$$'; echo clean", printed="clean\n", second=SECOND + "\n", policy=POLICY, told=WITHHELD, leaks="other report"),
    Scene("joins programs the wrong way, the reader late", "confine-run first -- cat $S/key | (sleep 0.5; confine-run second -- sh -c 'cat - > /tmp/x$$; cat /tmp/x$$ $T/key > $U; rm /tmp/x$$'); echo clean", printed="clean\n", second=SECOND + "\n", policy=POLICY, told=WITHHELD, leaks="other report"),
    Scene("joins programs the wrong way, the writer late", "(sleep 0.5; confine-run first -- cat $S/key) | confine-run second -- sh -c 'cat - > /tmp/x$$; cat /tmp/x$$ $T/key > $U; rm /tmp/x$$'; echo clean", printed="clean\n", second=SECOND + "\n", policy=POLICY, told=WITHHELD, leaks="other report"),
    Scene("joins programs, the reader late", "confine-run first -- cat $S/key | (sleep 0.5; confine-run first,second -- sh -c 'cat - $T/key > $U'); echo clean", printed="clean\n", second=f"{SECRET}\n{SECOND}\n", policy=POLICY),
    Scene("joins programs, the writer late", "(sleep 0.5; confine-run first -- cat $S/key) | confine-run first,second -- sh -c 'cat - $T/key > $U'; echo clean", printed="clean\n", second=f"{SECRET}\n{SECOND}\n", policy=POLICY),
    Scene("joins a secret to what prints", "confine-run first -- cat $S/key | confine-run none -- cat; echo clean", printed="clean\n", policy=POLICY, told=WITHHELD, leaks="text"),
    Scene("starts at a label after it has read", READ + "confine-run first -- true 2> /dev/null; echo $? > $R", report="69\n", policy=POLICY),
    Scene("starts at a lower label after it has read", READ + "confine-run none -- echo $k; echo $? > $R", report="69\n", policy=POLICY, leaks="text"),
    Scene("hands down by a program that it started before", "mkfifo /tmp/f$$; (sleep 0.3; cat $S/key > /tmp/f$$) & confine-run none -- cat < /tmp/f$$; echo clean; rm /tmp/f$$", policy=POLICY, told=None, leaks="text"),
    Scene("starts at no such label", "confine-run third -- true 2> /dev/null; echo $?", printed="69\n", policy=POLICY),
    Scene("starts above the clearance", "confine-run second -- cat $T/key 2> /dev/null; echo $?", printed="69\n", policy=POLICY + "program = {clearance = {second = 2}}\n"),
    Scene("starts by a name of a folder", "confine-run secret -- sh -c 'cat $S/key > $R'; echo clean", printed="clean\n", report=SECRET + "\n", words=TWO),
    Scene("starts many, one after another", "for i in $(seq 40); do confine-run none -- true || echo no; done; echo done", printed="done\n", policy=POLICY),
    Scene("starts what it can't", "confine-run none -- /no/such/program 2> /dev/null; echo $?", printed="127\n", policy=POLICY),
    Scene("starts in its folder, with its words", "cd /usr; X=y confine-run none -- sh -c 'pwd; echo $X'", printed="/usr\ny\n", policy=POLICY),
    Scene("starts a program that starts another", "confine-run none -- confine-run first -- sh -c 'cat $S/key > $R'; echo clean", printed="clean\n", report=SECRET + "\n", policy=POLICY),
    Scene("leaves what it started behind", "confine-run first -- sh -c 'sleep 1; cat $S/key > $R'; exit 0", report=SECRET + "\n", policy=POLICY),
    Scene("goes by a gate that the started may not enter", "confine-run first,second -- cat $S/key $T/key > /gate/lines; echo clean", printed="clean\n", policy=GATES),
)
