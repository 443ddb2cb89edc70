"""More scenes of confine: what a program finds by the names that its user gave, what stood in its reports before, its errors, and what it
starts with a clearance or asks of a gate that answers. An attack is also played without confine, where it has to be seen."""
from gate.confine_attacks import WITHHELD, perl
from gate.confine_scenes import GATES, ONE, OWN, POLICY, PUBLIC, READ, READ_OTHER, SECOND, SECRET, TWO, Scene

LINE = f"{SECRET}\n"

# Links that lead to what is named.
LINKS = (
    Scene("reads a secret by a link to it", "cat $N/key > $R", report=LINE, words=["--secret", "$N", "--report", "$R"]),
    Scene("reads a secret by a link to what it lies in", "cat $L/secret/key > $R", report=LINE, words=["--secret", "$L/secret", "--report", "$R"]),
    Scene("reads a secret by its own name, and was given a link", "cat $S/key > $R", report=LINE, words=["--secret", "$N", "--report", "$R"]),
    Scene("writes its report by a link", "cat $S/key > $L/report", report=LINE, words=["--secret", "$S", "--report", "$L/report"]),
    Scene("reads what is public by a link", "cat $L/public/text", printed=PUBLIC + "\n", words=["--public", "$L/public"]),
    Scene("reads a secret by a link and dots", "cat $L/./public/../secret/key > $R", report=LINE, words=["--secret", "$L/secret", "--report", "$R", "--public", "$P"]),
    Scene("reads a secret by a link of links", "cat $L/by-link/by-link/near/key > $R", report=LINE, words=["--secret", "$L/by-link/by-link/near", "--report", "$R"]),
    Scene("has a policy that names a secret by a link", "cat $N/key > $R", report=LINE, policy=POLICY.replace('"secret"', '"near"')),
    Scene("reads by a link and prints", "cat $N/key", words=["--secret", "$N", "--report", "$R"], status=None, leaks="text"),
    Scene("looks at a link and prints", "test -L $N && test -d $N && echo hello", printed="hello\n", words=["--secret", "$N", "--report", "$R"]),
    Scene("goes up from a link", "cat $N/../own/own", words=["--secret", "$N", "--report", "$R"], status=None, leaks="own"),
    Scene("turns a link to another folder", "rm -f $N; ln -s $O $N; cat $N/own; rm -f $N; ln -s secret $N", words=["--secret", "$N", "--report", "$R"], status=None, leaks="own"),
    Scene("turns a link to a folder of its own", "rm -f $N; mkdir /tmp/n$$; echo x > /tmp/n$$/key; ln -s /tmp/n$$ $N; cat $N/key; cat $S/key > $R", printed=None, report=LINE, words=["--secret", "$N", "--report", "$R"]),
    Scene("puts a file in the place of a link to its report", "cat $S/key > /tmp/k$$; mv /tmp/k$$ $L/report", report=LINE, words=["--secret", "$S", "--report", "$L/report"]),
)

# The folder that a program which is started begins in.
FOLDERS = (
    Scene("starts in a folder of its own", "mkdir -p /tmp/a/b; cd /tmp/a/b; confine-run none -- pwd", printed="/tmp/a/b\n", policy=POLICY),
    Scene("starts in the folder of its report", "cd $H; confine-run none -- pwd | grep -c .; confine-run none -- sh -c 'echo x > open'", printed="1\n", open="x\n", policy=POLICY),
    Scene("starts in a folder that it has taken away", "mkdir /tmp/a; cd /tmp/a; rmdir /tmp/a; confine-run none -- pwd", printed="/\n", policy=POLICY),
)

# What stood in a report before: at the report's label.
ALONE = ["--report", "$R"]
OLD = {"old": LINE}
BEFORE = (
    Scene("reads what its report had", "cat $R", printed="old\n", report="old\n", old="old\n", words=ALONE),
    Scene("reads what its report had, once it has read the secret", "cat $S/key > /tmp/k$$; cat $R /tmp/k$$ > /tmp/n$$; cat /tmp/n$$ > $R", report=f"old\n{SECRET}\n", old="old\n"),
    Scene("changes what its report had", "cat $S/key > /dev/null; " + perl('open(F,"+<","$ENV{R}"); $l=<F>; print F "new\\n"'), report="old\nnew\n", old="old\n"),
    Scene("changes the begin of what its report had", perl('open(F,"+<","$ENV{R}"); print F "new"'), report="new old\n", old="old old\n"),
    Scene("opens what its report had, and leaves it", "exec 5<> $R; exec 6>> $R; cat $R > /dev/null", report="old\n", old="old\n"),
    Scene("cuts what its report had", ": >> $R; " + perl('truncate("$ENV{R}",2)'), report="ol", old="old\n"),
    Scene("adds to what its report had and cuts it", "echo more >> $R; " + perl('truncate("$ENV{R}",4)') + "; echo new >> $R", report="old\nnew\n", old="old\n"),
    Scene("takes what its report had away", "rm $R; echo new > /tmp/n$$; mv /tmp/n$$ $R", report="new\n", old="old\n"),
    Scene("has much in its report before", "cat $S/key > /dev/null; wc -c < $R > /tmp/n$$; cat /tmp/n$$ >> $R", report="x" * 3_000_000 + "3000000\n", old="x" * 3_000_000),
    Scene("has much in a report of no secret before", "wc -c < $R", printed="3000000\n", report="x" * 3_000_000, old="x" * 3_000_000, words=ALONE),
    Scene("prints what its report had", "cat $R", report=LINE, leaks="text", **OLD),
    Scene("prints what its report had, by what it opened before", "exec 5< $R; echo more >> $R; cat <&5", report=LINE + "more\n", leaks="text", **OLD),
    Scene("tells how much its report had", "test -s $R && echo the end", report=LINE, leaks="end", **OLD),
    Scene("tells of what its report had by a name of its own", "ln $R $H/name; ln -s $R /tmp/l$$; cat $H/name /tmp/l$$; rm -f $H/name /tmp/l$$", report=LINE, leaks="text", **OLD),
    Scene("prints what its report had by a start", "confine-run none -- cat $R; confine-run first -- cat $R; echo clean", printed="clean\n", report=LINE, policy=POLICY, told=WITHHELD, leaks="text", **OLD),
    Scene("prints what its report had by a start's input", "exec 6< $R; (sleep 1; confine-run none -- cat <&6) & : >> $R; wait", report=LINE, policy=POLICY, status=None, leaks="text", **OLD),
    Scene("writes what its report had to another secret's", "cat $R > /tmp/x$$; cat $T/key /tmp/x$$ > $U", second=SECOND + "\n", report=LINE, words=TWO, leaks="other report", is_noted=False, **OLD),
    Scene("tells when it reads what its report had", "sleep 0.3; cat $S/key $R > /dev/null; sleep 0.3", report="old\n", old="old\n", leaks="report read"),
    Scene(
        "starts what adds to a report, and what reads that later",
        "confine-run first -- sh -c 'cat $S/key >> $R'; sleep 1; confine-run first -- sh -c 'cat $R $R > /tmp/x$$; cat /tmp/x$$ > $R'; sleep 1; confine-run first -- sh -c 'wc -l < $R >> $R'",
        report=f"old\n{SECRET}\n" * 2 + "4\n",
        old="old\n",
        policy=POLICY,
    ),
)

# Errors once a secret was read, and the status: at the label of a file of faults. Without confine the file has all errors.
FAULTY = [*ONE, "--faults", "$E"]
BY_FAULTS = POLICY + 'faults = [{file = "errors", label = {first = 3}}]\n'
OUT = "[ -d /confine ] || exec 2> $E; "
MUCH = 1 << 20
LEFT_OUT = "\nconfine: what came then is left out\n"
FAULTS = (
    Scene("has its errors in a file of faults", "echo shown >&2; cat $S/key >&2; exit 3", words=FAULTY, faults=f"{SECRET}\nconfine: the status is 3\n"),
    Scene("reads nothing and has no faults", "echo x >&2; exit 3", words=FAULTY, status=3),
    Scene("has no faults in place of those of before", "echo x >&2; exit 3", words=FAULTY, status=3, laid='echo before > "$E"'),
    Scene("has a signal that ended it in its faults", READ + "kill -9 $$", words=FAULTY, faults="confine: the status is 137\n"),
    Scene("begins at a secret's label and has faults", "echo x >&2; exit 3", words=[*FAULTY, "--born-tainted"], faults="x\nconfine: the status is 3\n"),
    Scene("has its report's fault in its faults", READ + "rm -f $R; mkfifo $R", words=FAULTY, faults="confine: the status is 0\nconfine: $R: the program left no plain file there\n"),
    Scene("has more errors than its faults have room for", READ + "head -c 3000000 /dev/zero | tr '\\0' x >&2", words=FAULTY, faults="x" * (MUCH - len(LEFT_OUT)) + LEFT_OUT),
    Scene("prints much as errors that go nowhere", READ + "head -c 30000000 /dev/zero >&2; echo done > $R", words=TWO, report="done\n"),
    Scene("writes its faults by their name", READ + "echo $k > $E; rm -f $E; ln -s $P/new $E", words=FAULTY, status=None, faults="confine: the status is 0\n"),
    Scene("makes its faults a name in what is public", OUT + READ + "echo $k >&2; ln $E $P/link", words=FAULTY, status=None, leaks="faults linked", faults=None),
    Scene("tells by the length of its faults while it runs", OUT + READ + "head -c 4242 /dev/zero >&2; sleep 0.3; echo more >&2", words=FAULTY, leaks="faults length", faults=None),
    Scene("writes faults that all may read", OUT + READ + "echo $k >&2; sleep 0.3", words=FAULTY, laid='chmod 644 "$E"', leaks="faults readable", faults=f"{SECRET}\nconfine: the status is 0\n"),
    Scene("has faults that have a name in what is public", OUT + READ + "echo $k >&2", words=FAULTY, status=2, laid='ln -f "$E" "$P/link"', is_noted=False, leaks="faults linked"),
    Scene("has faults where there is no room", "echo hello", words=[*ONE, "--faults", "$O/errors"], status=70, laid='mount -t tmpfs -o size=64k,mode=777 none "$O"'),
    Scene("has faults of another secret", OUT + READ_OTHER + "echo $j >&2", words=[*FAULTY, "--secret", "$T", "--report", "$U"], leaks="other report", is_noted=False),
    Scene("has faults of two secrets in the file of one", OUT + READ + READ_OTHER + "echo $j >&2", words=[*FAULTY, "--secret", "$T", "--report", "$U"], leaks="other report", is_noted=False),
    Scene("has faults of the second secret", READ_OTHER + "echo $j >&2", words=["--secret", "$S", "--report", "$R", "--secret", "$T", "--faults", "$E"], faults=f"{SECOND}\nconfine: the status is 0\n"),
    Scene("has faults in a file of two secrets", READ + "echo $k >&2", policy=BY_FAULTS.replace("first = 3}}]\n", "first = 3, second = 3}}]\n"), faults=f"{SECRET}\nconfine: the status is 0\n"),
    Scene("starts what has faults", "confine-run first -- sh -c 'cat $S/key >&2; exit 5'; echo clean", printed="clean\n", policy=BY_FAULTS, faults=f"{SECRET}\nconfine: the status is 5\n"),
    Scene("starts what has faults of another label", OUT + "confine-run second -- sh -c 'cat $T/key >&2'; confine-run first,second -- sh -c 'cat $T/key >&2'; echo clean", printed="clean\n", policy=BY_FAULTS, leaks="other report", faults="confine: the status is 0\n"),
    Scene("starts what has faults, and may not have their label", "confine-run first=2 --at-most first=2 -- sh -c 'echo x >&2'; echo clean", printed="clean\n", policy=BY_FAULTS),
    Scene("prints its faults", "cat $E; echo none", printed="none\n", words=FAULTY, laid='echo "the-secret-key" > "$E"', leaks="text", faults="confine: the status is 0\n"),
)

# Clearances of what is started.
TOLD = "; echo $?"
MOST = (
    Scene("starts at most at a label, which is read", "confine-run none --at-most first -- sh -c 'cat $S/key > $R'; echo clean", printed="clean\n", report=LINE, policy=POLICY),
    Scene("starts at most at a label and reads another's", "confine-run none --at-most first -- cat $T/key 2> /dev/null" + TOLD, printed="1\n", policy=POLICY),
    Scene("starts at most at a label, which prints another's", "confine-run second --at-most second -- sh -c 'cat $S/key $T/key > $U; cat $S/key >> $R'; echo clean", printed="clean\n", policy=POLICY),
    Scene("starts at most at a label and writes the report of both", "confine-run first --at-most first -- sh -c 'cat $S/key > $U || cat $S/key > $R'; echo clean", printed="clean\n", report=LINE, policy=POLICY),
    Scene("raises its clearance by a start", "confine-run none --at-most first -- confine-run none --at-most second -- echo no 2> /dev/null" + TOLD, printed="69\n", policy=POLICY),
    Scene("raises its clearance by a start at a label", "confine-run none --at-most first -- confine-run second -- cat $T/key 2> /dev/null" + TOLD, printed="69\n", policy=POLICY),
    Scene("raises its clearance by a start of a start", "confine-run none --at-most first -- confine-run none -- confine-run none -- cat $T/key 2> /dev/null" + TOLD, printed="1\n", policy=POLICY),
    Scene("starts within its clearance", "confine-run none --at-most first -- confine-run none --at-most none -- sh -c 'echo yes; cat $S/key' 2> /dev/null" + TOLD, printed="yes\n1\n", policy=POLICY),
    Scene("starts at most below its label", "confine-run first --at-most none -- echo no 2> /dev/null" + TOLD, printed="69\n", policy=POLICY),
    Scene("starts at most above the clearance of all", "confine-run none --at-most second -- echo no 2> /dev/null" + TOLD, printed="69\n", policy=POLICY + "program = {clearance = {second = 2}}\n"),
    Scene("starts at most at no such label", "confine-run none --at-most third -- echo no 2> /dev/null" + TOLD, printed="69\n", policy=POLICY),
    Scene("starts at most at nothing", "confine-run none --at-most '' -- echo no 2> /dev/null" + TOLD + "; confine-run none --at-most -- echo no 2> /dev/null" + TOLD, printed="2\n2\n", policy=POLICY),
    Scene("starts at most at a level", "confine-run none --at-most first=2 -- cat $S/key 2> /dev/null" + TOLD, printed="1\n", policy=POLICY),
    Scene("starts many that wait, at most at a label", "for i in $(seq 20); do confine-run first --at-most first -- sh -c 'cat $T/key > $U || cat $S/key >> $R'; done; echo clean", printed="clean\n", report=LINE * 20, policy=POLICY),
    Scene("starts at most at a label, which goes by a gate", "confine-run first --at-most first -- cat $S/key > /gate/lines; echo clean", printed="clean\n", open="1\n", policy=GATES),
)

# Gates that answer. Without confine a pipe answers with what is written to it.
ANSWERING = GATES.replace('name = "count"\n', 'name = "count"\nanswers = true\n').replace('name = "broken"\nprogram = ["/no/such/program"]\nowns = ["first"]\n', 'name = "same"\nprogram = ["cat"]\nanswers = true\n')
TO = "if [ -e /gate/%s ]; then exec 5<> /gate/%s; else mkfifo /tmp/g$$; exec 5<> /tmp/g$$; rm /tmp/g$$; fi; "
TO_COUNT, TO_SAME = (TO % (it, it) for it in ("count", "same"))
ASKS = perl('use Socket; open(F,"+<","/gate/%s"); syswrite(F,"four"); shutdown(F,1); print %s <F>')
ANSWERS = (
    Scene("is answered of what it started", TO_COUNT + "confine-run first -- cat $S/key >&5; read n <&5; echo $n", printed=f"{len(SECRET) + 1}\n", policy=ANSWERING),
    Scene("is answered of several that it started", TO_COUNT + "for i in 1 2 3; do confine-run first -- cat $S/key >&5; read n <&5; echo $n; done", printed=f"{len(SECRET) + 1}\n" * 3, policy=ANSWERING),
    Scene("is answered itself", ASKS % ("count", "STDOUT"), printed="4\n", policy=ANSWERING),
    Scene("is answered at its label", READ + ASKS % ("same", "STDOUT") + " > /tmp/a$$; cat /tmp/a$$ > $R", report="four", policy=ANSWERING),
    Scene("is answered at its label and prints", READ + TO_SAME + "echo $k >&5; read n <&5; echo $n", policy=ANSWERING, leaks="text"),
    Scene("is answered of another's secret", TO_SAME + "confine-run first -- cat $S/key >&5; timeout 2 cat <&5; echo clean", printed="clean\n", policy=ANSWERING, leaks="text", is_noted=False),
    Scene("is answered of a secret that the gate does not own", TO_COUNT + "confine-run first,second -- cat $T/key >&5; timeout 2 cat <&5; echo clean", printed="clean\n", policy=ANSWERING, leaks="text"),
    Scene("is answered of a secret that is read later", TO_SAME + "confine-run none -- sh -c 'sleep 1; cat $S/key' >&5 2> /dev/null; timeout 2 cat <&5; echo clean", printed="clean\n", policy=ANSWERING, leaks="text", is_noted=False),
    Scene("holds a gate that answers and reads a secret that it does not own", TO_COUNT + "cat $T/key 2> /dev/null | cat; echo held", printed="held\n", policy=ANSWERING, leaks="text"),
    Scene("is answered by another's way", TO_COUNT + "confine-run first -- cat $S/key >&5; confine-run none -- sh -c 'timeout 1 cat' <&5; echo clean", printed=f"{len(SECRET) + 1}\nclean\n", policy=ANSWERING, status=None),
    Scene("shows the errors of a gate that answers", READ + "if [ -d /gate ]; then exec 5<> /gate/noisy; else exec 5>&2; fi; echo $k >&5; sleep 0.5", policy=ANSWERING.replace('"same"\nprogram = ["cat"]', '"noisy"\nprogram = ["sh", "-c", "cat >&2"]'), leaks="text"),
    Scene("tells by the failure of a gate that answers", READ + "if [ -d /gate ]; then " + ASKS % ("failing", "STDERR") + "; else echo failing failed; fi", leaks="failure", policy=ANSWERING.replace('"same"\nprogram = ["cat"]', '"failing"\nprogram = ["false"]')),
    Scene("leaves a gate's answer unread", TO_SAME + "head -c 3000000 /dev/zero >&5 & sleep 0.5; kill $! 2> /dev/null; echo done", printed="done\n", policy=ANSWERING, seconds=30, status=None),
    Scene("ends before it is answered", TO_COUNT + "confine-run first -- sh -c 'sleep 1; cat $S/key' >&5; echo done", printed="done\n", policy=ANSWERING, seconds=30),
    Scene("closes its way before a start is there", "confine-run first -- cat $S/key 3<> /gate/count >&3; exec 3>&-; echo done", printed="done\n", policy=ANSWERING, seconds=30),
    Scene("reads a gate that does not answer", "(exec 5<> /gate/lines) 2> /dev/null || echo none", printed="none\n", policy=ANSWERING),
)

# What is hostile in several ways at once.
BIG = {"old": "x" * 3_000_000}
HOSTILE = (
    Scene("opens what its report had by many at once", "cat $S/key > /dev/null; for i in 1 2 3 4 5 6 7 8; do " + perl('open(F,"+<","$ENV{R}"); seek(F,0,2); print tell(F)') + " > /tmp/n$$-$i & done; wait; cat /tmp/n$$-* > $R", report="3000000" * 8, **BIG),
    Scene("has a report in its secret, of which it is the one file", "cat $S/key > /tmp/k$$; cat /tmp/k$$ > $S/key", words=["--secret", "$S", "--report", "$S/key"]),
    Scene("starts what sees no more of a report than it may", "confine-run none -- sh -c 'test -s $R && echo the end'; confine-run second -- sh -c 'cat $T/key $R > /tmp/x$$; cat /tmp/x$$ > $U'; echo clean", printed="clean\n", second=SECOND + "\n", policy=POLICY, report=LINE, leaks="end", **OLD),
    Scene("tells how long its report was by how long a start takes", "for i in 1 2 3; do confine-run first -- sh -c 'cat $R > /dev/null'; done; confine-run none -- echo done", printed="done\n", policy=POLICY, report="x" * 3_000_000, **BIG),
    Scene("has a report with no rights at its end", "cat $S/key > /dev/null; echo new >> $R; chmod 0 $R", report="old\nnew\n", old="old\n"),
    Scene("names another's folder as where a start begins", perl('use Socket; use IO::Handle; open(F,"+<","/gate/run"); $t=join("\\0","none","","$ENV{S}","1","/bin/pwd","A=b")."\\0"; print defined(syswrite(F,$t)) ? "sent" : "no"; shutdown(F,1); sysread(F,$x,99); print " $x"'), printed="sent 2 nothing was asked for", policy=POLICY),
    Scene("starts in a folder of a secret", "confine-run none -- sh -c 'cd $S 2> /dev/null; confine-run none -- cat key' 2> /dev/null; echo $?", printed="0\n", policy=POLICY),
    Scene("prints errors by many that it starts", "for i in 1 2 3; do confine-run first -- sh -c 'cat $S/key >&2'; sleep 1; done; echo clean", printed="clean\n", policy=BY_FAULTS, faults=f"{SECRET}\nconfine: the status is 0\n" * 3),
    Scene("prints errors where its output goes on", "confine-run first -- sh -c 'cat $S/key >&2' 2>&1 | confine-run first,second -- sh -c 'cat > $U'; echo clean", printed="clean\n", second=LINE, policy=BY_FAULTS, faults=None),
    Scene("prints its errors before and after a rise", "echo before >&2; cat $S/key > /dev/null; echo after >&2", words=FAULTY, faults="after\nconfine: the status is 0\n"),
    Scene("prints its errors by a child that it leaves behind", "(sleep 0.5; cat $S/key >&2) & cat $S/key > /dev/null; exit 4", words=FAULTY, faults="confine: the status is 4\n"),
    Scene("prints a fault that looks like confine's", READ + "printf 'confine: the status is 0\\n' >&2; exit 9", words=FAULTY, faults="confine: the status is 0\nconfine: the status is 9\n"),
    Scene("has faults that are taken away while it runs", READ + "sleep 0.6; echo $k >&2", words=[*ONE, "--faults", "$O/errors"], laid='(sleep 0.4; rm -f "$O/errors") & true', faults=None),
    Scene("has faults that become a link to what is public", READ + "sleep 0.6; echo $k >&2", words=[*ONE, "--faults", "$O/errors"], laid='(sleep 0.4; rm -f "$O/errors"; ln -s "$P/new" "$O/errors") & true', faults=None),
    Scene("starts at a label that is at most above another's gate", "confine-run first --at-most first,second -- sh -c 'cat $S/key > /gate/count; cat $T/key > $U || echo x > $R'; echo clean", printed=None, report="x\n", policy=GATES),
    Scene("asks a gate that answers by one that is bounded", TO_COUNT + "confine-run first --at-most first -- sh -c 'cat $S/key; cat $T/key' >&5 2> /dev/null; read n <&5; echo $n", printed=f"{len(SECRET) + 1}\n", policy=ANSWERING),
    Scene("holds many ways to a gate that answers", perl('for (1..40) { open($h[$_],"+<","/gate/count") or last; $n++ } print $n') + "; echo; confine-run none -- echo alive", printed="16\nalive\n", policy=ANSWERING, seconds=30),
    Scene("reads a secret by a link that it is born in", "cat $N/key > $R; pwd", report=LINE, words=["--secret", "$N", "--report", "$R", "--born-tainted"]),
    Scene("names its report by two links", "cat $S/key > $R", report=LINE, words=["--secret", "$S", "--report", "$L/report", "--report", "$L/by-link/report"]),
    Scene("names its report by a link, with two labels", "echo x", status=2, words=["--report", "$R", "--secret", "$S", "--report", "$L/report"]),
    Scene("names its faults by a link to its report", "echo x", status=2, words=["--secret", "$S", "--report", "$R", "--faults", "$L/report"]),
    Scene("names what is public by a link into its secret", "echo x", status=2, words=["--secret", "$S", "--public", "$N"]),
)
ALL = (*LINKS, *FOLDERS, *BEFORE, *FAULTS, *MOST, *ANSWERS, *HOSTILE)
