#!/usr/bin/python3
"""Logs and scripts that tools/plot refuses: its status, what it says, and that nothing is written."""
import checks

CONFIG = "config 1 5 8 8 100 20 3 2\n"
NACK = "81cd00033333333311111111"
SENT = "sent 65537 0 00"


def plot(name, log, script, status, err):
    """One log, and its script where it has one; what stands at the picture's place stays as it is."""
    log_name = checks.put("bad.log", log.encode("latin-1"))
    if script is not None:
        checks.put("bad.script", script.encode("latin-1"))
    picture = checks.put("bad.png", b"old")
    came = checks.tool("plot", log_name, picture)
    checks.same(name, came, (status, "", err + "\n"))
    checks.same(f"{name}: the picture", checks.get(picture), b"old")


def logs():
    """Logs of sim beside good scripts."""
    script = CONFIG + "S 0 0 0 aa - -\nD 0 1\nP 2\nA 3\n"
    good = SENT + "\ntaken 65537 0\nplay 65537 0 0 aa - -\nask none\n"
    for name, old, new, err in (
        ("an unknown word", "taken", "took", "line 2: 'took' is no word of such a line"),
        ("an empty line", "taken 65537 0", "", "line 2: '' is no word of such a line"),
        ("a word too few", "taken 65537 0", "taken 65537", "line 2: 'taken' has 2 words behind it, not 1"),
        ("a word too many", "taken 65537 0", "taken 65537 0 0", "line 2: 'taken' has 2 words behind it, not 3"),
        ("two spaces", "taken 65537", "taken  65537", "line 2: 'taken' has 2 words behind it, not 3"),
        ("a leading zero", "taken 65537", "taken 065537", "line 2: '065537' is not what stands there behind 'taken'"),
        ("a sign", "taken 65537", "taken +65537", "line 2: '+65537' is not what stands there behind 'taken'"),
        ("a place too large", "taken 65537", "taken 281474976710656",
         "line 2: '281474976710656' is not what stands there behind 'taken'"),
        ("odd octets", "0 00", "0 000", "line 1: '000' is not what stands there behind 'sent'"),
        ("no octets", "0 00", "0 0g", "line 1: '0g' is not what stands there behind 'sent'"),
        ("a marker", "0 0 aa", "0 2 aa", "line 3: '2' is not what stands there behind 'play'"),
        ("a timestamp", "0 0 aa", "4294967296 0 aa", "line 3: '4294967296' is not what stands there behind 'play'"),
        ("a CSRC list", "aa - -", "aa 1234567 -", "line 3: '1234567' is not what stands there behind 'play'"),
        ("an extension", "aa - -", "aa - beef1", "line 3: 'beef1' is not what stands there behind 'play'"),
        ("an ask that is no NACK", "ask none", f"ask 1 {NACK}", "line 4: the datagram of an ask is no generic NACK"),
        ("an ask of another length", "ask none", f"ask 1 81cd0004{NACK[8:]}00010000",
         "line 4: the datagram of an ask is no generic NACK"),
        ("an ask of another type", "ask none", f"ask 1 81ce{NACK[4:]}00010000", "line 4: the datagram of an ask is no generic NACK"),
        ("an index twice", "ask none", f"ask 0 {NACK}00010000", "line 4: the index 0 stands for a datagram already"),
        ("no ASCII", "taken", "t\xe4ken", "line 2: there are octets that are no ASCII"),
        ("another answer", "taken 65537 0", "wait", "line 2: 'wait' answers no event 'D', which the script has there"),
        ("none of another word", "taken 65537 0", "ask none", "line 2: 'ask' answers no event 'D', which the script has there"),
        ("taken for none", "taken 65537 0", "taken none", "line 2: 'taken' has 2 words behind it, not 1"),
        ("a line too many", "ask none\n", "ask none\nwait\n", "line 5: the script has no event for it"),
        ("a line too few", "ask none\n", "", "line 4: the log ends, and the script goes on"),
        ("an empty log", good, "", "line 1: there is nothing to draw"),
    ):
        checks.same(f"{name}: its row stands for something", old in good, True)
        plot(name, good.replace(old, new, 1), script, 1, err)
    plot("an ask before all", f"ask 0 {NACK}00010000\n", CONFIG + "A 3\n", 1, "line 1: an ask stands before any packet was taken")
    falling = "taken 65537 0\nplay 65537 0 0 aa - -\nplay 65537 0 0 aa - -\n"
    plot("a place played twice", falling, CONFIG + "D 0 1\nP 2\nP 2\n", 1, "line 3: place 65537 comes behind place 65537")


def scripts():
    """Good logs beside bad scripts."""
    for name, script, err in (
        ("an empty script", "", "line 1: a script begins with its config line"),
        ("no config", "P 0\n", "line 1: a script begins with its config line"),
        ("a bad config", CONFIG.replace("100", "0100") + "P 0\n", "line 1: '0100' is not what stands there behind 'config'"),
        ("a short config", CONFIG.replace(" 2\n", "\n") + "P 0\n", "line 1: 'config' has 8 words behind it, not 7"),
        ("a window of none", CONFIG.replace("8 8", "8 0") + "P 0\n", "line 1: '0' is not what stands there behind 'config'"),
        ("another word than learn", CONFIG.replace("\n", " teach\n") + "P 0\n", "line 1: 'config' has 8 words behind it, not 9"),
        ("an unknown event", CONFIG + "Q 0\n", "line 2: 'Q' is no word of such a line"),
        ("an event without its moment", CONFIG + "P\n", "line 2: 'P' has 1 words behind it, not 0"),
        ("an end that is none", CONFIG + "I x aa 0\n", "line 2: 'x' is not what stands there behind 'I'"),
        ("a line without its end", CONFIG + "P 0\nP 0", "line 3: the last line lacks its line feed"),
    ):
        plot(name, "wait\n", script, 1, "the script: " + err)


def relays():
    """Logs of relays."""
    for name, log, err in (
        ("no moment", "1 stray\nstray\n", "line 2: a line begins with a moment and a word"),
        ("a moment alone", "1 stray\n2\n", "line 2: a line begins with a moment and a word"),
        ("a moment with a zero", "1 stray\n02 stray\n", "line 2: a line begins with a moment and a word"),
        ("a word of sim's alone", "1 stray\n2 wait\n", "line 2: 'wait' is no word of such a line"),
        ("a loss of nothing", f"1 {SENT}\n2 lost 1\n", "line 2: no datagram of the index 1 left before"),
        ("an index twice", f"1 {SENT}\n2 {SENT}\n", "line 2: the index 0 stands for a datagram already"),
        ("two sides", f"1 {SENT}\n2 gap 5\n", "line 2: 'gap' stands in no log of a relay that sends"),
        ("two sides, the receiver first", f"1 gap 5\n1 stray\n2 {SENT}\n", "line 3: 'sent' stands in no log of a relay that receives"),
        ("two tails", "1 tail 2\n", "line 1: '2' is not what stands there behind 'tail'"),
        ("a short session", "1 session 11111111 96 22222222 97\n", "line 1: 'session' has 5 words behind it, not 4"),
        ("an SSRC", "1 session 1111111 96 - 97 -\n", "line 1: '1111111' is not what stands there behind 'session'"),
        ("a falling play", "1 gap 5\n2 gap 4\n", "line 2: place 4 comes behind place 5"),
    ):
        plot(name, log, None, 1, err)


def files():
    """What can't be read or written, and command lines."""
    good = checks.put("good.log", b"1 gap 5\n")
    checks.same("no log", checks.tool("plot", checks.path("none.log"), checks.path("x.png")),
                (3, "", checks.path("none.log") + ": No such file or directory\n"))
    alone = checks.put("alone.log", b"wait\n")
    checks.same("no script", checks.tool("plot", alone, checks.path("x.png")),
                (3, "", checks.path("alone.script") + ": No such file or directory\n"))
    checks.same("a picture and counts", checks.tool("plot", good, checks.path("x.png"), "--counts")[0], 2)
    checks.same("neither", checks.tool("plot", good)[0], 2)
    other = checks.put("other", (CONFIG + "P 0\n").encode())
    checks.same("another script", checks.tool("plot", alone, "--counts", "--script", other)[0], 0)
    checks.same("no picture was written", checks.get(checks.path("x.png")), None)
    cut = checks.put("alone.log", b"wait\nwai")
    checks.put("alone.script", (CONFIG + "P 0\nP 0\nP 0\n").encode())
    checks.same("a log that was cut off", checks.tool("plot", cut, "--counts")[0], 0)


logs()
scripts()
relays()
files()
checks.end()
