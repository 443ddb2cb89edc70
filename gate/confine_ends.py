"""More scenes of confine: what programs at several labels share in one confine (gates, pipes and their ends, places), and how all of it
ends. Where there are labels without confine too, an attack is played without it, where it has to be seen."""
from gate.confine_attacks import WITHHELD, perl
from gate.confine_scenes import GATES, POLICY, READ, SECRET, Scene

LINE = f"{SECRET}\n"

# The fifth descriptor leads to a gate; without confine it is a pipe.
TO_GATE = "if [ -e /gate/lines ]; then exec 5> /gate/lines; else mkfifo /tmp/g$$; exec 5<> /tmp/g$$; rm /tmp/g$$; fi; "

# The same of how long something took: it is told where that was less than so many seconds.
SINCE = "a=$(date +%s); "


def told_below(seconds, where):
    return f'b=$(date +%s); [ $((b-a)) -lt {seconds} ] && echo "the end" {where}'


# What is written to a gate is read by its program alone.
WAYS = (
    Scene(
        "opens a gate's pipe anew and reads what another wrote",
        TO_GATE + "for i in 1 2 3; do timeout 2 cat /dev/fd/5 & done; for i in 1 2 3 4 5 6; do confine-run first -- cat $S/key >&5; done; sleep 0.5; exec 5>&-; wait",
        policy=GATES,
        open="1\n" * 6,
        leaks="text",
    ),
    Scene("reads what another wrote to a gate by /proc", TO_GATE + "confine-run first -- cat $S/key >&5; timeout 1 cat /proc/self/fd/5", policy=GATES, open="1\n", leaks="text"),
    Scene("gives a gate's pipe to another to read", TO_GATE + "confine-run first -- cat $S/key >&5; timeout 2 confine-run none -- cat <&5", policy=GATES, open="1\n", leaks="text"),
    Scene(
        "asks how much another wrote to a gate",
        TO_GATE + "confine-run first -- cat $S/key >&5; sleep 0.3; " + perl('open(F,">&=5"); $n=pack("i",0); ioctl(F,0x541B,$n); print unpack("i",$n) > 0 ? 1 : 0'),
        printed="0",
        policy=GATES,
        open="1\n",
        leaks="means",
    ),
    Scene(
        "makes a pipe until it has a gate's number",
        "exec 5> /gate/lines; n=$(stat -Lc %i /dev/fd/5); "
        + perl('use POSIX; $n=shift; for (1..20000) { mkfifo("/tmp/f",0600); last if (stat("/tmp/f"))[1] >= $n; unlink "/tmp/f" }')
        + " $n; (timeout 3 cat /tmp/f) & confine-run first -- cat $S/key > /tmp/f; wait; echo clean",
        printed="clean\n",
        policy=GATES,
        open="0\n",
        told=WITHHELD,
        users=(1,),
    ),
    Scene("writes to a gate by itself and by another", "exec 5> /gate/lines; confine-run first -- cat $S/key >&5; echo x >&5; exec 5>&-; echo clean", printed="clean\n", policy=GATES, open=None),
    Scene("has another write to a gate that it may not enter", "exec 5> /gate/lines; confine-run second -- cat $T/key >&5; confine-run first,second -- cat $T/key >&5", policy=GATES),
    Scene("has another write to a gate that reads more later", "exec 5> /gate/lines; confine-run none -- sh -c 'echo x; cat $T/key' >&5 2> /dev/null; true", policy=GATES, open="1\n"),
)

# An end is a write: of the writer's to the reader, or of the reader's to the writer.
ENDS = (
    Scene(
        "tells by the end of what another reads",
        "mkfifo /tmp/f$$; (confine-run none -- sh -c '" + SINCE + "cat > /dev/null; b=$(date +%s); [ $((b-a)) -gt 2 ] && echo the end > $Q' < /tmp/f$$) & "
        "exec 6> /tmp/f$$; rm /tmp/f$$; sleep 0.5; " + READ + "sleep 4; exec 6>&-; wait",
        policy=POLICY,
        leaks="end",
    ),
    Scene("tells by the end of who reads what is written", SINCE + "(timeout 4 yes; " + told_below(4, ">&2") + ") | confine-run first -- sleep 2; echo done", printed="done\n", policy=POLICY, leaks="end"),
    Scene(
        "tells by its end to one that writes to it",
        "confine-run none -- sh -c '" + SINCE + "timeout 4 yes; " + told_below(4, ">&2") + "' | confine-run first -- sleep 2; echo done",
        printed="done\n",
        policy=POLICY,
        told=None,
        leaks="end",
    ),
    Scene(
        "tells by reading no more of what another writes",
        "mkfifo /tmp/f$$; (confine-run none -- sh -c '" + SINCE + "timeout 4 yes; " + told_below(4, "> $Q") + "' > /tmp/f$$) & exec 6< /tmp/f$$; rm /tmp/f$$; " + READ + "sleep 2; exec 6<&-; wait",
        policy=POLICY,
        leaks="end",
    ),
    Scene("tells by ending one that it has started", "confine-run none -- sh -c 'sleep 2; echo late > $Q' & p=$!; sleep 0.5; " + READ + "kill $p; wait", policy=POLICY, open="late\n", status=None),
    Scene("ends what writes to a program that has ended", "yes | confine-run none -- true; echo done", printed="done\n", policy=POLICY),
    Scene("ends a program that writes where nobody reads", "confine-run none -- yes | head -1", printed="y\n", policy=POLICY),
    Scene("ends a program that writes to one that has ended", "confine-run none -- yes | confine-run none -- head -1", printed="y\n", policy=POLICY),
    Scene("ends what writes to a gate that has ended", "yes > /gate/short; echo done", printed="y\ndone\n", policy=GATES.replace("broken", "short").replace('["/no/such/program"]', '["head", "-1"]'), status=None),
    Scene("ends the client of a program, and so the program", "confine-run none -- sh -c 'sleep 2; echo late > $Q' & p=$!; sleep 0.5; kill $p; sleep 2.5", policy=POLICY),
    Scene("starts with an output that no broker can wait for", "timeout 3 " + perl('$f=syscall(290,0,0); syscall(33,$f,1); exec "confine-run","none","--","yes"') + " 2> /dev/null; echo $? > /tmp/s; cat /tmp/s", printed="69\n", policy=POLICY, seconds=30),
    Scene(
        "starts with an output that it half reads",
        perl('socketpair(A,B,AF_UNIX,SOCK_STREAM,0); setsockopt(A,SOL_SOCKET,SO_SNDBUF,1); if (!($p=fork)) { open(STDOUT,">&",A); exec "confine-run","none","--","head","-c","9000000","/dev/zero" } sysread(B,$x,1000); select(undef,undef,undef,0.5); print `timeout 9 confine-run none -- echo alive`; kill 9,$p'),
        printed="alive\n",
        policy=POLICY,
        seconds=30,
    ),
    Scene("joins a program to one that has ended", "confine-run none -- sh -c 'sleep 0.5; echo x; sleep 0.5; ls /tmp' | confine-run none -- true; echo done", printed="done\n", policy=POLICY),
    Scene("joins a program to one at its label that has ended", "confine-run first -- sh -c 'cat $S/key; sleep 1; cat $S/key; sleep 1; ls /tmp' | confine-run first -- head -1; echo done", printed="done\n", policy=POLICY, told=WITHHELD),
)

# What is counted is counted for each label.
PLACES = (
    Scene("fills the places of another label", "for i in $(seq 16); do confine-run first -- sleep 4; done; timeout 3 confine-run none -- true && echo free", printed="free\n", policy=POLICY),
    Scene(
        "fills the gates by another label",
        "confine-run first -- " + perl('open(K,"<","$ENV{S}/key"); <K>; for (1..16) { open($h[$_],">","/gate/count") } sleep 2') + "; sleep 1; echo x > /gate/count || echo full",
        printed="2\n" + "0\n" * 16,
        policy=GATES,
    ),
    Scene("starts more than have a place, and all run", "for i in $(seq 40); do confine-run none -- sh -c 'sleep 0.2; echo x' & done | wc -l; wait", printed="40\n", policy=POLICY),
    Scene(
        "starts more than the broker has descriptors for, and one once these have ended",
        "for i in $(seq 12); do confine-run none -- sleep 4 2> /tmp/said$i & done; wait; cat /tmp/said* | grep -q 'can.t be started' && echo some; confine-run none -- echo body",
        printed="some\nbody\n",
        policy=POLICY,
        laid="ulimit -n 64",
    ),
    Scene("starts more at a label than have a place, and all run", "for i in $(seq 40); do confine-run first -- sh -c 'cat $S/key >> $R'; done; echo clean", printed="clean\n", report=LINE * 40, policy=POLICY),
)

# What Linux has of a file, a device or the machine, by two programs at different labels.
HOLDS = "confine-run first -- " + perl('open(K,"<","$ENV{S}/key"); <K>; open(F,"<","%s"); flock(F,2); select(undef,undef,undef,2)') + " & sleep 1; "
TRIES = perl('open(F,"<","%s"); print flock(F,6) ? "free" : "the end"') + "; wait"


def lock(what, path, users=(0, 1)):
    return Scene(f"tells another label by a lock of {what}", HOLDS % path + TRIES % path, printed="free", policy=POLICY, leaks="end", users=users)


SHARED = (
    lock("a file of /usr", "/usr/lib/os-release"),
    lock("a file of /etc", "/etc/passwd"),
    lock("a device", "/dev/zero", users=(0,)),
    Scene("tells others by a lock of a file of /usr", perl('open(K,"<","$ENV{S}/key"); <K>; open(F,"<","/usr/lib/os-release"); flock(F,2); select(undef,undef,undef,0.3)'), leaks="usr lock", status=None),
    Scene("asks how much memory the machine has", perl('$s="x" x 112; syscall(99,$s); print join(" ",unpack("x32Q2",$s))'), printed=f"{8 << 30} {4 << 30}"),
    Scene("asks whether a file is in the machine's memory", perl('open(F,"<","/usr/lib/os-release"); $b="x" x 9; $v=pack("PQ",$b,9); print syscall(327,fileno(F),$v,1,0,0,8) < 0 && $!!=11 ? 0 : 1'), printed="0", leaks="means"),
    Scene("reads what is in memory alone", perl('pipe(A,B); syswrite(B,"x"); $b="y"; $v=pack("PQ",$b,1); print syscall(327,fileno(A),$v,1,-1,-1,8) == 1 ? 1 : 0'), printed="0", leaks="means"),
    Scene("has a file kept in the machine's memory no more", perl('open(F,"<","/usr/lib/os-release"); print syscall(221,-1,0,0,4) < 0 ? 1 : 0'), printed="0", leaks="means"),
    Scene("sends a byte out of its turn", perl('socketpair(A,B,AF_UNIX,SOCK_STREAM,0); print defined(send(A,"x",1)) ? 1 : 0'), printed="0", leaks="means"),
)

# What people run.
PIPELINES = (
    Scene("puts a program between others in a pipeline", "(echo header; confine-run none -- echo body; echo footer) | confine-run none -- cat", printed="header\nbody\nfooter\n", policy=POLICY),
    Scene("puts two programs in a group", "(confine-run none -- echo a; confine-run none -- echo b) | cat", printed="a\nb\n", policy=POLICY),
    Scene("keeps the errors of a program in a pipeline", "confine-run none -- sh -c 'echo e >&2; echo o' 2>&1 | confine-run none -- sort", printed="e\no\n", policy=POLICY),
    Scene("keeps two programs of a group at a label", "(confine-run first -- cat $S/key; confine-run first -- cat $S/key) | confine-run first -- sh -c 'sleep 1; cat > $R'", report=LINE * 2, policy=POLICY),
    Scene("prints in turn with what it has started", "for i in 1 2 3 4 5 6; do confine-run none -- printf $i; printf $i; done", printed="112233445566", policy=POLICY),
    Scene("starts programs within programs", "confine-run none -- " * 10 + "echo deep", printed="deep\n", policy=POLICY),
    Scene("has what a program prints lost", "confine-run none -- echo x > /dev/full; echo $?", printed="70\n", policy=POLICY),
    Scene("ends a program by a signal to its client", "timeout 1 confine-run none -- sleep 30; echo $?", printed="124\n", policy=POLICY),
)
ALL = (*WAYS, *ENDS, *PLACES, *SHARED, *PIPELINES)
