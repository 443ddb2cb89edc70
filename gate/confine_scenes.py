"""The scenes of confine: programs, and what each may leave. Most are attacks, which tell a secret where nothing keeps them.

$S, $T: the secret folders; $R, $U: their reports; $Q: a report of no secret; $P: a public folder; $O: a folder of the user's that
nobody named; $E: a file of faults; $L, $N: links to the folder that all of these are in, and to the first secret."""

SECRET = "the-secret-key"
SECOND = "the-other-key"
PUBLIC = "for-everyone"
OWN = "for-the-user"


class Scene:
    """A program, and what it leaves: what it prints and its status, which may be any where there is None, its reports, and
    how one of confine's lines ends, where that is asked. Where `leaks` names a way, the program tells the secret by it: the scene is
    also played without confine, where it has to be seen, and the program adds a line to its report once it has come to its end."""

    def __init__(self, name, program, printed="", report="", second="", open="", status=0, words=None, stdin=None, policy="", told=None, leaks=None, users=(0, 1), is_noted=True, old="", laid=None, seconds=300, faults=""):
        self.name = name
        self.program = program
        self.printed = printed
        self.report = report
        self.second = second
        self.open = open
        self.status = status
        self.words = words
        self.stdin = stdin
        self.policy = policy
        self.told = told
        self.leaks = leaks
        self.users = users  # as which it is played: 0, root, and 1, an ordinary user
        self.is_noted = is_noted  # in confine: not where what it did bars it from its report
        self.old = old  # what stands in its report before
        self.laid = laid  # a command that root gives before it begins, in a namespace of its own for mounts
        self.seconds = seconds  # it ends within that time
        self.faults = faults  # what its file of faults has, with $R as its report's path


ONE = ["--secret", "$S", "--report", "$R", "--public", "$P"]
TWO = ["--secret", "$S", "--report", "$R", "--secret", "$T", "--report", "$U", "--public", "$P"]
OPEN = ["--report", "$Q", "--secret", "$S", "--report", "$R", "--public", "$P"]
READ = "k=$(cat $S/key); "

SCENES = (
    # What a program may do.
    Scene("prints before it reads", "echo hello", printed="hello\n"),
    Scene("tells its status before it reads", "exit 7", status=7),
    Scene("prints to its standard error before it reads", "echo hello >&2", printed=""),
    Scene("reads what is public", "cat $P/text", printed=PUBLIC + "\n"),
    Scene("reads a secret and writes its report", READ + "echo $k > $R", report=SECRET + "\n"),
    Scene("writes its report by creat", "perl -e '$p=$ENV{R}; $f=syscall(85,$p,0600); syscall(1,$f,$x=qq(x\\n),2)'", report="x\n"),
    Scene("writes its report from the start", "echo begun > $R; cat $S/key >> $R", report=f"begun\n{SECRET}\n"),
    Scene("begins in the folder of its report, where it was called", "echo x > report; cat secret/key >> report", report=f"x\n{SECRET}\n"),
    Scene("begins at the root, where it was called elsewhere", "pwd", printed="/\n", words=["--public", "$P"]),
    Scene("counts the files of a secret", "ls $S | wc -l > $R", report="1\n"),
    Scene("uses a folder of its own", "cat $S/key > /tmp/copy; cp /tmp/copy /tmp/more; cat /tmp/more > $R", report=SECRET + "\n"),
    Scene("reads a secret by a child", "(cat $S/key) | cat > $R", report=SECRET + "\n"),
    Scene("reads a secret by a relative path", "cd $S/..; cat secret/key > $R", report=SECRET + "\n"),
    Scene("reads a secret by a path with dots", "cat $S/./../secret//key > $R", report=SECRET + "\n"),
    Scene("reads two secrets apart", "cat $T/key > $U", second=SECOND + "\n", words=TWO),
    Scene("reads its standard input", "cat", printed="typed\n", stdin="typed\n"),
    Scene("reads much of its standard input", "wc -c", printed="1000000\n", stdin="x" * 1_000_000),
    Scene("leaves its standard input unread", "echo done", printed="done\n", stdin="x" * 1_000_000),
    Scene("writes a report of no secret", "echo done > $Q", open="done\n", words=OPEN),
    # What it may not.
    Scene("reads and prints", READ + "echo $k", status=None, leaks="text"),
    Scene("reads and prints as an error", READ + "echo $k >&2", status=None, leaks="text"),
    Scene("prints what it had begun to print", "printf begun; cat $S/key", printed="begun", status=None, leaks="text"),
    Scene("tells by its status", READ + "exit ${#k}", leaks="status"),
    Scene("tells by a signal that ends it", READ + "kill -9 $$", leaks="status"),
    Scene("reads by a child, and the parent prints", "k=$(sh -c 'cat '$S/key); echo $k", status=None, leaks="text"),
    Scene("reads by a pipe", "cat $S/key | (read k; echo $k)", status=None, leaks="text"),
    Scene("reads by a socket pair", "perl -MSocket -e 'socketpair(A,B,AF_UNIX,SOCK_STREAM,0); open(F,\"<\",\"'$S'/key\"); print A <F>; close A; print <B>'", status=None, leaks="text"),
    Scene("reads by a descriptor that it hands to a child", "exec 5< $S/key; sh -c 'cat <&5'", status=None, leaks="text"),
    Scene("maps it and prints", "perl -e 'open(F,\"<\",\"'$S'/key\"); my $r=syscall(9,0,4096,1,2,fileno(F),0); print unpack(\"P14\",pack(\"Q\",$r))'", status=None, leaks="text"),
    Scene("sends it by sendfile", "perl -e 'open(F,\"<\",\"'$S'/key\"); syscall(40,1,fileno(F),0,100)'", status=None, leaks="text"),
    Scene("sends it by splice", "perl -e 'open(F,\"<\",\"'$S'/key\"); syscall(275,fileno(F),0,1,0,100,0)'", status=None, leaks="text"),
    Scene("sends it by copy_file_range", "perl -e 'open(F,\"<\",\"'$S'/key\"); open(G,\">\",\"'$P'/text\"); syscall(326,fileno(F),0,fileno(G),0,100,0)'", status=None, leaks="text"),
    Scene("writes it to what is public", READ + "echo $k > $P/text", status=None, leaks="text"),
    Scene("writes it into a pipe with a name in what is public", READ + "echo $k > $P/pipe", status=None, leaks="text"),
    Scene("makes a file in what is public", READ + "echo $k > $P/new", status=None, leaks="text"),
    Scene("writes it back into the secret", READ + "echo $k > $S/key; echo $k > $S/new", leaks="secret"),
    Scene("makes a folder in the secret by name", READ + "mkdir $S/$k", leaks="secret"),
    Scene("takes a name away in the secret", "rm -f $S/key; mv $S/key $S/gone", leaks="secret"),
    Scene("tells by the time of a public file", READ + "touch -d @14 $P/text", leaks="time", status=None),
    Scene("tells by the rights of a public file", READ + "chmod 606 $P/text", leaks="rights", status=None),
    Scene("links a secret to what is public", "ln $S/key $P/link; ln -s $S/key $P/link", leaks="names"),
    Scene("links a secret to its own folder and prints", "ln -s $S/key /tmp/link$$; cat $S/key > /dev/null; cat /tmp/link$$; rm /tmp/link$$", status=None, leaks="text"),
    Scene("renames a secret to its own folder", "mv $S/key /tmp/key$$; rm -f /tmp/key$$", leaks="secret"),
    Scene("reads a folder that nobody named", "cat $O/own 2>/dev/null || echo no", printed="no\n", leaks="own"),
    Scene("goes up from a secret", "cat $S/../own/own; ls $S/.. | grep -c own > $R", report="0\n", leaks="own"),
    Scene("reads the environment of another by /proc", "cat /proc/1/environ 2>/dev/null || echo no", printed="no\n"),
    Scene("finds others by /proc", "ls -d /proc/[0-9]* | grep -v -e /1$ -e /2$ | wc -l | tr 2-9 1", printed="1\n"),
    Scene("writes by /proc", "(echo x > /proc/self/comm; echo 1 > /proc/self/oom_score_adj) 2>/dev/null || echo no", printed="no\n"),
    Scene("looks at the machine by /proc", "cat /proc/sys/kernel/hostname /proc/locks /proc/kmsg 2>/dev/null || echo no", printed="no\n"),
    Scene("reads a home folder", "ls /root /home 2>/dev/null; echo none", printed="none\n"),
    Scene("opens a terminal", "echo x > /dev/tty; ls /dev/pts; echo none", printed="none\n"),
    Scene("listens and connects", "perl -MSocket -e 'print socket(S,PF_INET,SOCK_STREAM,0) ? 1 : 0'", printed="0", leaks="means"),
    Scene("uses an abstract socket", "perl -MSocket -e 'print socket(S,PF_UNIX,SOCK_STREAM,0) ? 1 : 0'", printed="0", leaks="means"),
    Scene("sends a packet", "perl -MSocket -e 'print socket(S,PF_INET,SOCK_DGRAM,17) ? 1 : 0'", printed="0", leaks="means"),
    Scene("reads another process's memory", "perl -e 'print syscall(310,1,0,0,0,0,0) < 0 ? 0 : 1'", printed="0"),
    Scene("signals the broker", "kill -9 -1; kill -9 1; echo alive", printed="alive\n", status=None),
    Scene("uses shared memory", "perl -e 'print syscall(29,7,4096,0666|01000) < 0 ? 0 : 1'", printed="0", leaks="means"),
    Scene("uses a queue of messages", "perl -e 'print syscall(68,7,0666|01000) < 0 ? 0 : 1'", printed="0", leaks="means"),
    Scene("uses a keyring", "perl -e 'print syscall(250,0,-3,1) < 0 ? 0 : 1'", printed="0", leaks="means"),
    Scene("makes a namespace", "unshare -U true; echo $?", printed="1\n"),
    Scene("makes a device", "perl -e 'my $p=\"/tmp/d$$\"; print syscall(133,$p,0020666,5) < 0 ? 0 : 1; unlink $p'", printed="0", leaks="means", users=(0,)),
    Scene("leaves a process behind", READ + "(sleep 60; echo $k) & exit 0"),
    Scene("reads one secret and writes the other's report", READ + "echo $k > $U", words=TWO, leaks="other report"),
    Scene("reads both and writes either report", READ + "cat $T/key; echo $k > $R; echo $k > $U", words=TWO, leaks="other report", is_noted=False),
    Scene("holds a report of no secret and reads", "exec 5> $Q; cat $S/key >&5; echo refused >&5", open="refused\n", words=OPEN, leaks="text", is_noted=False),
    Scene("holds one report and reads the other secret", "exec 5> $R; cat $T/key >&5; echo refused >&5", report="refused\n", words=TWO, leaks="other report"),
    Scene("reads a report back", "echo kept > $R; cat $R >> $R; echo none >> $R", report="kept\nnone\n"),
    Scene("writes its report and then prints", "echo kept > $R; echo hello", report="kept\n"),
    Scene("writes a report by a link", "ln -s $R /tmp/link; (echo x > /tmp/link) 2>/dev/null; echo $?", printed="2\n"),
    Scene("is born with the secrets and prints", "echo hello; cat $S/key", words=ONE + ["--born-tainted"], leaks="text"),
    Scene("is born with the secrets and writes its report", "cat $S/key > $R", report=SECRET + "\n", words=ONE + ["--born-tainted"]),
    Scene("tells by names that confine explains", READ + "cat $S/$k $T/$k; echo > $U/$k; echo > $R.$k; echo > $U", words=TWO + ["--explain"]),
    Scene("starts processes without end", "perl -e 'for (1..3000) { $p = fork; last if !defined $p; if (!$p) { sleep 60; exit } $n++ } print $n <= 512 ? 0 : $n'", printed="0"),
    Scene("is not there", None, status=127, printed=""),
)

# A policy of two categories, with what it says of the program and of gates left open. The second report may have both secrets.
POLICY = """
categories = ["first", "second"]
public = ["public"]
read = [{folder = "secret", label = {first = 3}}, {folder = "second", label = {second = 3}}]
write = [{file = "report", label = {first = 3}}, {file = "report2", label = {first = 3, second = 3}}, {file = "open"}]
"""
GATES = (
    POLICY
    + """
[[gate]]
name = "count"
program = ["wc", "-c"]
owns = ["first"]

[[gate]]
name = "lines"
program = ["wc", "-l"]
owns = ["first"]
file = "open"

[[gate]]
name = "broken"
program = ["/no/such/program"]
owns = ["first"]
"""
)
BY_POLICY = ["--policy", "$F"]
EXPLAINED = [*BY_POLICY, "--explain"]
COUNT = f"{len(SECRET) + 1}\n"
READ_OTHER = "j=$(cat $T/key); "

POLICY_SCENES = (
    Scene("has a policy and writes a report", READ + "echo $k > $R", report=SECRET + "\n", policy=POLICY),
    Scene("has a policy and prints", READ + "echo $k", policy=POLICY, leaks="text"),
    Scene("has a policy and reads what is public", "cat $P/text", printed=PUBLIC + "\n", policy=POLICY),
    Scene("writes a report of two secrets", READ + READ_OTHER + "echo $k $j > $U", second=f"{SECRET} {SECOND}\n", policy=POLICY),
    Scene("writes one secret to the report of both", READ_OTHER + "echo $j > $U", second=SECOND + "\n", policy=POLICY),
    Scene("writes both secrets to the report of one", READ + READ_OTHER + "echo $k $j > $R", policy=POLICY, leaks="other report", is_noted=False),
    Scene("writes the report of both and then that of one", "echo x > $U; echo y > $R", second="x\n", policy=POLICY),
    Scene("is cleared for one secret and reads it", READ + "echo $k > $R", report=SECRET + "\n", policy=POLICY + "program = {clearance = {second = 2}}\n"),
    Scene(
        "is cleared for one secret and reads the other",
        READ_OTHER + "echo $j > $U; echo hello",
        policy=POLICY + "program = {clearance = {second = 2}}\n",
        printed="hello\n",
        words=EXPLAINED,
        told=" in the category of second it is at 3, and the program's clearance at 2",
    ),
    Scene("begins at a secret's label and prints", "echo hello", policy=POLICY + "program = {label = {first = 3}}\n"),
    Scene("begins at a secret's label and writes its report", "cat $S/key > $R", report=SECRET + "\n", policy=POLICY + "program = {label = {first = 3}}\n"),
    Scene("writes what only a lower label may", "echo x > $Q", policy=POLICY.replace('{file = "open"}', '{file = "open", label = {first = 0}}'), status=2),
    Scene("tells by a gate how long a secret is", "cat $S/key | cat > /gate/count", printed=COUNT, policy=GATES),
    Scene("tells by a gate and prints as well", READ + "echo $k; echo $k > /gate/count; echo $k", printed=COUNT, policy=GATES),
    Scene("tells by a gate that writes a file", "cat $S/key > /gate/lines", open="1\n", policy=GATES),
    Scene("goes through a gate twice", READ + "echo $k >> /gate/lines; echo $k > /gate/lines", open="1\n1\n", policy=GATES),
    Scene("begins a gate and fills it later", "exec 5> /gate/count; cat $S/key >&5", printed=COUNT, policy=GATES),
    Scene("goes through a gate with another's secret", READ_OTHER + "echo $j > /gate/count", policy=GATES),
    Scene(
        "goes through a gate with both secrets",
        READ + READ_OTHER + "echo $k > /gate/count",
        policy=GATES,
        words=EXPLAINED,
        told="refused to enter the gate count: in the category of second the program is at 3, and it at 1",
    ),
    Scene(
        "holds a gate and reads another's secret",
        "exec 5> /gate/count; cat $T/key >&5; echo refused >&5",
        printed="8\n",
        policy=GATES,
        words=EXPLAINED,
        told="second: the program was given count to write",
    ),
    Scene("reads a gate", "cat /gate/count; ls /gate", printed="broken\ncount\nlines\n", policy=GATES),
    Scene("reads back from a gate", "(exec 5<> /gate/count) 2>/dev/null || echo none", printed="none\n", policy=GATES),
    Scene("makes a gate of its own", "echo x > /gate/more; ls /gate | wc -l", printed="3\n", policy=GATES),
    Scene("takes a gate for a folder", "echo x > /gate/count/x; echo x > /gate/../gate/count", printed="2\n", policy=GATES),
    Scene("tells by a gate whose program isn't there", "echo x > /gate/broken", policy=GATES, told="the gate broken failed", status=None),
    Scene("leaves a gate open behind", "sleep 60 > /gate/count & sleep 0.3; exit 0", printed="0\n", policy=GATES),
)
