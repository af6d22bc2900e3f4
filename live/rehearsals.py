"""Cases of live/check that rehearse: an application as it is, over the switches and the stimuli of a session."""

import subprocess
import sys
import tempfile

from harness import HERE, application, frame, misbehaving, python, same

SECONDS = 60
PASSED = "# start, reply and again lines passed over: "
# It is misbehaving.py, mended: it fails at no frame.
MENDED = f"import sys; sys.path.insert(0, {HERE!r}); import misbehaving; misbehaving.HOW.clear(); misbehaving.Misbehaving().run()"

LEARNT = f"""session 1
switch 1 8 1,2,3
start app ready
reply app x:0000 closed
join 1
frame 1 1 02000000000202000000000188b5
frame 1 2 02000000000102000000000288b5
at 7
frame 1 1 02000000000202000000000188b5
frame 1 1 02000000000202000000000188b5
at 30
"""
CRASHES = f"""session 1
switch 1 8 1,2,3
join 1
frame 1 2 {frame(1).hex()}
at 5
frame 1 3 {frame(2).hex()}
at 9
frame 1 2 {frame(0x11).hex()}
"""


def rehearse(program, policy, session, status=0):
    """The report of a rehearsal, of which two print the same bytes."""
    with tempfile.TemporaryDirectory() as room:
        text = f"{policy.replace('PID_FILE', room + '/pid')}---\n{session}"
        first, second = (subprocess.run([program], input=text.encode(), stdout=subprocess.PIPE, timeout=SECONDS) for _ in range(2))
    same((first.returncode, second.returncode), (status, status), "the statuses")
    same(second.stdout, first.stdout, "the second report")
    return first.stdout.decode().splitlines()


def learns(program):
    """The learning switch of the SDK. Its first frame is flooded; the next ones find their receiver, and add an entry. The last frame
    meets one."""
    policy = application("app", python("../sdk/python/examples/learning_switch.py"))
    same(rehearse(program, policy, LEARNT), [
        f"{PASSED}2", "start app ready", "event 1 join 1", "turn app done", "event 2 packet_in 1", "turn app done", "out 1 14",
        "event 3 packet_in 1", "turn app done", "out 1 14", "event 4 packet_in 1", "turn app done", "out 1 14", "switch 1 flows 2",
        "flow 100 in_port=1,dl_src=02:00:00:00:00:01,dl_dst=02:00:00:00:00:02 cookie=0 idle=60 hard=300 flags=0 packets=1 bytes=14 age=23 "
        "actions=0000000800020000",
        "flow 100 in_port=2,dl_src=02:00:00:00:00:02,dl_dst=02:00:00:00:00:01 cookie=0 idle=60 hard=300 flags=0 packets=0 bytes=0 age=30 "
        "actions=0000000800010000",
        "app app alive done 4 failed 0", "end 30 events 4",
    ], "the report")


def crashes(program):
    """It ends in its third turn, behind an entry and a packet, and is started again with the state of its second one."""
    same(rehearse(program, misbehaving(), CRASHES), [
        f"{PASSED}0", "start app ready", "event 1 join 1", "turn app done", "event 2 packet_in 1", "turn app done", "out 1 14",
        "event 3 packet_in 1", "turn app failed closed", "start app ready", "event 4 packet_in 1", "turn app done", "out 1 14",
        "switch 1 flows 3",
        "flow 20 dl_dst=02:00:00:00:00:01 cookie=2 idle=0 hard=0 flags=1 packets=0 bytes=0 age=9 actions=0000000800020000",
        "flow 20 dl_dst=02:00:00:00:00:11 cookie=3 idle=0 hard=0 flags=1 packets=0 bytes=0 age=0 actions=0000000800020000",
        "flow 10 dl_dst=ff:ff:ff:ff:ff:ff cookie=1 idle=0 hard=0 flags=0 packets=0 bytes=0 age=9 actions=00000008fffb0000",
        "app app alive done 3 failed 1", "end 9 events 4",
    ], "the report")


def is_mended(program):
    """The same session, and the application mended: its third turn is done, and adds its entry."""
    policy = application("app", [sys.executable, "-c", MENDED])
    same(rehearse(program, policy, CRASHES), [
        f"{PASSED}0", "start app ready", "event 1 join 1", "turn app done", "event 2 packet_in 1", "turn app done", "out 1 14",
        "event 3 packet_in 1", "turn app done", "out 1 14", "event 4 packet_in 1", "turn app done", "out 1 14",
        "switch 1 flows 4",
        "flow 20 dl_dst=02:00:00:00:00:01 cookie=2 idle=0 hard=0 flags=1 packets=0 bytes=0 age=9 actions=0000000800020000",
        "flow 20 dl_dst=02:00:00:00:00:02 cookie=3 idle=0 hard=0 flags=1 packets=0 bytes=0 age=4 actions=0000000800030000",
        "flow 20 dl_dst=02:00:00:00:00:11 cookie=4 idle=0 hard=0 flags=1 packets=0 bytes=0 age=0 actions=0000000800020000",
        "flow 10 dl_dst=ff:ff:ff:ff:ff:ff cookie=1 idle=0 hard=0 flags=0 packets=0 bytes=0 age=9 actions=00000008fffb0000",
        "app app alive done 4 failed 0", "end 9 events 4",
    ], "the report")


def is_refused(program):
    """What is no input is refused as `replay` refuses it. A line that is passed over may name an application that is not there."""
    false = application("app", ["/bin/false"])
    for policy, session, line in (
        (false, "session 1\nstart nobody ready\nreply nobody m\nagain nobody\njoin 1\n", "bad session 9 switch"),
        (false, "reply\n", "bad session 5 order"),
        ("", "session 1\n", "bad policy missing command"),
        ('[[app]]\nname = "app"\n', "session 1\n", "bad policy missing command"),
        ('judge = "quota"\nquota = 1\n' + false, "session 1\n", "bad policy later"),
    ):
        same(rehearse(program, policy, session, 3), [line], "the refusal")


CASES = {
    "a rehearsal of the learning switch": learns,
    "a rehearsal of an application that ends in its turn": crashes,
    "a rehearsal of that application, mended": is_mended,
    "rehearsals that are refused": is_refused,
}


def fault_of(program, play):
    """Plays a case; what differs, or None."""
    try:
        play(program)
        return None
    except (AssertionError, OSError, ValueError, subprocess.TimeoutExpired) as fault:
        return fault
