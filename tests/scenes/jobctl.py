"""Scenes of `jobctl` beside a launcher whose replies are there before they are asked for: what it asks, prints and tells, and its status.

`play.py` plays them; `harness.py` has what all scenes share.
"""
import json
import os
import pty
import select
import signal
import socket
import subprocess

from harness import BOUND, Deadline, Late, bytes_at, check, make, patience, text_at

# The files of a scene, each with what it holds.
FILES = {
    "one.json": '{"Label":"one","Program":"/bin/true"}',
    "two.plist": '{"Label":"two","Program":"/bin/true"}',
    "bad.json": '{"Label":"bad","Program":7}',
    "none.json": "[]",
    "jobs/z.plist": "z",
    "jobs/b.plist": "b",
    "jobs/readme.txt": "r",
    "jobs/B.json": "B",
    "jobs/ab.json": "ab",
    "jobs/a.json": "a",
    "jobs/plist": "p",
    "jobs/c.json.bak": "c",
    "jobs/folder.json/d.json": "d",
    "fits.json": "n" * 262_075,
    "record.json": "n" * 262_101,
    "long.json": "n" * 262_144,
    "longer.json": "n" * 262_145,
}

# How the launcher at the socket behaves: it says its replies, whatever it is asked, and then ends the connection; it does so before it
# takes anything of what is asked; it says its replies and goes on; nobody listens at the socket's file; there is no such file.
ANSWERS, HAS_NO_ROOM, IS_SILENT, IS_REFUSED, IS_MISSING = range(5)

LISTED = '{"req":"list"}\n'
DONE = '{"code":0,"text":""}\n'


def load(definition):
    """The request that loads this text."""
    escaped = definition.replace('"', '\\"')
    return f'{{"F":false,"def":"{escaped}","req":"load","w":false}}\n'


def make_files(stage):
    for name in ("jobs", "jobs/folder.json", "empty"):
        os.mkdir(stage.at(name))
    for name, text in FILES.items():
        make(stage.at(name), text)
    with open(stage.at("latin.json"), "wb") as file:
        file.write(b'"\xe9"')


def placed(stage, text):
    """The text with the scene's folder for each `@`."""
    return text.replace("@", stage.folder)


class Seen:
    """What came of a run."""

    def __init__(self, status, asked, printed, told):
        self.status, self.asked, self.printed, self.told = status, asked, printed, told


def serve(client, behaves, replies):
    try:
        client.sendall(replies)
        if behaves == ANSWERS:
            client.shutdown(socket.SHUT_WR)
        elif behaves == HAS_NO_ROOM:
            client.shutdown(socket.SHUT_RDWR)
    except OSError:
        pass


def beside(listener, process, behaves, replies):
    """What the process asks until its end, in one connection."""
    asked, clients, open_ones = b"", [], [listener] if listener else []
    deadline = Deadline(BOUND)
    while True:
        has_ended = process.poll() is not None
        ready, _, _ = select.select(open_ones, [], [], 0 if has_ended else 0.01)
        for one in ready:
            if one is listener:
                clients.append(listener.accept()[0])
                clients[-1].settimeout(patience())
                serve(clients[-1], behaves, replies)
                open_ones += clients[-1:] if behaves != HAS_NO_ROOM else []
                continue
            try:
                piece = one.recv(65536)
            except ConnectionResetError:
                piece = b""
            asked += piece
            if not piece:
                open_ones.remove(one)
        if has_ended and not ready:
            break
        if deadline.is_over():
            process.kill()
            raise Late(f"{process.args[1:]} does not end in {BOUND:.0f} s")
    for client in clients:
        client.close()
    check(len(clients) <= 1, f"{process.args[1:]} made {len(clients)} connections")
    return asked


def run(stage, words, behaves=ANSWERS, replies="", env=None, output=None, errors=None, name="jobd.sock", heeds_pipes=True):
    """Runs `jobctl` with these words to its end, beside a launcher at the socket of this name; `output` and `errors` are open files, or else
    what is printed and told is kept. It is started with SIGPIPE as it is in a shell, or with SIGPIPE ignored."""
    listener = None
    if behaves != IS_MISSING:
        listener = socket.socket(socket.AF_UNIX)
        listener.bind(stage.at(name))
        listener.listen(4)
    if behaves == IS_REFUSED:
        listener.close()
        listener = None
    around = {key: value for key, value in os.environ.items() if key not in ("JOBD_SOCKET", "JOBCTL_TIMEOUT")}
    with open(stage.at("printed"), "wb") as printed, open(stage.at("told"), "wb") as told:
        process = subprocess.Popen(
            [*stage.given.jobctl, *(placed(stage, word) for word in words)], cwd=stage.folder, stdin=subprocess.DEVNULL,
            stdout=printed if output is None else output, stderr=told if errors is None else errors, env={**around, **(env or {})}, restore_signals=heeds_pipes,
        )
        try:
            asked = beside(listener, process, behaves, replies.encode())
        finally:
            process.kill()
            status = process.wait()
            if listener:
                listener.close()
            if behaves != IS_MISSING:
                os.remove(stage.at(name))
    return Seen(status, asked.decode(), bytes_at(stage.at("printed")).decode(), bytes_at(stage.at("told")).decode())


def expect(stage, words, behaves=ANSWERS, replies="", status=0, asked="", printed="", told=(), env=None, name="jobd.sock"):
    """A run asks this, prints this, tells these lines, each by its front, and ends with this status."""
    seen = run(stage, words, behaves, replies, env, name=name)
    of = f"{words} with the replies {replies[:80]!r}"
    check(seen.status == status, f"{of} ends with {seen.status} and not {status}: {seen.told[:300]!r}")
    check(seen.asked == asked, f"{of} asks {seen.asked[:300]!r} and not {asked[:300]!r}")
    check(seen.printed == placed(stage, printed), f"{of} prints {seen.printed[:300]!r} and not {printed[:300]!r}")
    lines = seen.told.split("\n")
    check(lines.pop() == "", f"{of} tells half a line: {seen.told[-300:]!r}")
    fronts = [placed(stage, front) for front in told]
    is_told = len(lines) == len(fronts) and all(line.startswith(front) for line, front in zip(lines, fronts))
    check(is_told, f"{of} tells {lines} and not {fronts}")


def read_terminal(terminal):
    """All that a terminal was told that nobody else has open any more. It may come in pieces, and an error is its end."""
    text = b""
    while True:
        try:
            piece = os.read(terminal, 65536)
        except OSError:
            return text
        if not piece:
            return text
        text += piece


# ---- the scenes

def each_command_makes_its_request(stage):
    """Each subcommand asks its request to the byte."""
    make_files(stage)
    for words, asked in [
        (["start", "a"], '{"job":"a","req":"start"}\n'),
        (["stop", "a b"], '{"job":"a b","req":"stop"}\n'),
        (["enable", "gui/501/a"], '{"job":"a","req":"enable"}\n' + LISTED),
        (["disable", "system/a"], '{"job":"a","req":"disable"}\n' + LISTED),
        (["kickstart", "a"], '{"job":"a","k":false,"req":"kickstart"}\n'),
        (["kickstart", "-k", "a"], '{"job":"a","k":true,"req":"kickstart"}\n'),
        (["list"], LISTED),
        (["print", "user/1/a"], '{"job":"a","req":"print"}\n'),
        (["--socket", "s", "shutdown"], '{"req":"shutdown"}\n'),
        (
            ["load", "@/one.json"],
            '{"F":false,"def":"{\\"Label\\":\\"one\\",\\"Program\\":\\"/bin/true\\"}","req":"load","w":false}\n',
        ),
        (["load", "-F", "@/none.json"], '{"F":true,"def":"[]","req":"load","w":false}\n'),
        (["load", "-w", "@/none.json"], '{"F":false,"def":"[]","req":"load","w":true}\n'),
        (["unload", "@/one.json"], '{"job":"one","req":"unload","w":false}\n'),
        (["unload", "-w", "@/two.plist"], '{"job":"two","req":"unload","w":true}\n'),
    ]:
        expect(stage, words, replies=DONE, asked=asked, name="s" if "s" in words else "jobd.sock")


def a_label_that_is_not_loaded_names_those_near_it(stage):
    """What is asked of a label that is not loaded names those near it, and says what becomes of a setting. The status is as without that."""
    listed = '{"code":0,"text":"PID\\tStatus\\tLabel\\n-\\t0\\tnginx\\n7\\t-\\tpostgres\\n"}\n'
    refusal = '{"code":3,"text":"no such job\\n"}\n'
    kept = "is not loaded: the setting is kept for a later load"
    for words, request, reply, status, told in [
        (["stop", "ngnix"], '{"job":"ngnix","req":"stop"}\n', refusal, 3, ["no such job", "jobctl: ngnix is not loaded; near it: nginx"]),
        (["stop", "other"], '{"job":"other","req":"stop"}\n', refusal, 3, ["no such job"]),
        (["enable", "ngnix"], '{"job":"ngnix","req":"enable"}\n', DONE, 0, [f"jobctl: ngnix {kept}; near it: nginx"]),
        (["enable", "nginx"], '{"job":"nginx","req":"enable"}\n', DONE, 0, []),
        (["disable", "other"], '{"job":"other","req":"disable"}\n', DONE, 0, [f"jobctl: other {kept}"]),
        (["disable", "nginx"], '{"job":"nginx","req":"disable"}\n', DONE, 0, ["jobctl: nginx is loaded, and stays loaded until it is unloaded"]),
    ]:
        expect(stage, words, replies=reply + listed, status=status, asked=request + LISTED, told=told)


def a_job_is_unloaded_by_its_label(stage):
    """A word of an unload that is no path, and of which no file has the name, is the label of a loaded job; else it is a file that is missing."""
    printed = '{"job":"web","req":"print"}\n'
    shown = '{"code":0,"text":"web = {\\n\\tstate = idle\\n"}\n'
    unload = '{"job":"web","req":"unload","w":false}\n'
    expect(stage, ["unload", "web"], replies=shown + DONE, asked=printed + unload)
    absent = '{"code":3,"text":"no such job\\n"}\n'
    expect(stage, ["unload", "web"], replies=absent, status=65, asked=printed, told=["jobctl: web: "])
    for path in ("web.json", "./web", "web.plist"):
        expect(stage, ["unload", path], status=65, told=[f"jobctl: {path}: "])


def texts_are_printed(stage):
    """A reply of code 0 is printed, and a refusal told. One file's note has no name before it."""
    make_files(stage)
    text = '{"code":0,"text":"PID\\tStatus\\tLabel\\n"}\n'
    expect(stage, ["list"], replies=text, asked=LISTED, printed="PID\tStatus\tLabel\n")
    refusal = '{"code":3,"text":"no such job\\n"}\n'
    asked = '{"job":"a","req":"start"}\n' + LISTED
    expect(stage, ["start", "a"], replies=refusal, status=3, asked=asked, told=["no such job"])
    note = '{"code":0,"text":"not acted on: X\\n"}\n'
    expect(stage, ["load", "@/one.json"], replies=note, asked=load(FILES["one.json"]), printed="not acted on: X\n")


def a_folder_stands_for_its_files(stage):
    """There is one request for each file of a folder that ends so, in byte order of names; the status is the first code that is not 0. An
    empty folder is told, and a folder whose own name ends so is a folder."""
    make_files(stage)
    loaded, note = '{"code":4,"text":"already loaded\\n"}\n', '{"code":0,"text":"not acted on: X\\n"}\n'
    replies = [DONE, loaded, note, '{"code":5,"text":"disabled\\n"}\n', DONE]
    told = ["jobctl: @/jobs/a.json:", "already loaded", "jobctl: @/jobs/b.plist:", "disabled"]
    asked = "".join(load(text) for text in ("B", "a", "ab", "b", "z"))
    printed = "jobctl: @/jobs/ab.json:\nnot acted on: X\n"
    expect(stage, ["load", "@/jobs"], replies="".join(replies), status=4, asked=asked, printed=printed, told=told)
    expect(stage, ["load", "@/empty"], told=["jobctl: @/empty: no definition in this folder (*.plist, *.json)"])
    many = '{"code":10,"text":"too many jobs\\n"}\n'
    expect(stage, ["load", "@/jobs/folder.json"], replies=many, status=10, asked=load("d"), told=["too many jobs"])


def a_folder_of_many_files(stage):
    """A folder whose names take more than one read of the system: none is left out, by `jobctl` and by `jobscope`."""
    os.mkdir(stage.at("many"))
    names = [f"{number:03}{'x' * (number % 200)}" for number in range(300)]
    for name in names:
        make(stage.at(f"many/{name}.json"), json.dumps({"Label": name, "Program": "/bin/true", "StandardOutPath": "/dev/null", "RunAtLoad": True}))
    launcher = stage.serve()
    loaded = stage.jobctl(["load", stage.at("many")])
    check(loaded.returncode == 0, f"load ended with {loaded.returncode}: {loaded.stderr[-300:]!r}")
    listed = {line.split("\t")[2] for line in stage.jobctl(["list"]).stdout.splitlines()[1:]}
    check(listed == set(names), f"{len(listed)} of {len(names)} are loaded")
    checked = subprocess.run([*stage.given.jobscope, "check", stage.at("many")], capture_output=True, text=True, timeout=patience(BOUND))
    check(checked.returncode == 0, f"check ended with {checked.returncode}: {checked.stderr[-300:]!r}")
    launcher.shut_down()


def a_file_may_be_faulty(stage):
    """A file's fault leaves out that file alone, and has its place among the codes. Files that make no request are those that are no UTF-8,
    too long for the journal's line or for a request, and for `unload` no definition."""
    make_files(stage)
    bad = '{"code":8,"text":"bad definition: NotObject -\\n"}\n'
    told = ["jobctl: @/missing: ", "jobctl: @/none.json:", "bad definition: NotObject -"]
    expect(stage, ["load", "@/missing", "@/none.json"], replies=bad, status=65, asked=load("[]"), told=told)
    expect(stage, ["load", "@/none.json", "@/missing"], replies=bad, status=8, asked=load("[]"), told=told[1:] + told[:1])
    expect(stage, ["load", "@/latin.json", "@/record.json", "@/long.json", "@/longer.json"], status=65, told=[
        "jobctl: @/latin.json: not UTF-8",
        "jobctl: @/record.json: too long for a line of the journal",
        "jobctl: @/long.json: too long for a request",
        "jobctl: @/longer.json: too long for a request",
    ])
    words = ["unload", "@/bad.json", "@/none.json", "@/latin.json", "@/one.json"]
    expect(stage, words, replies=DONE, status=65, asked='{"job":"one","req":"unload","w":false}\n', told=[
        "jobctl: @/bad.json: bad definition: WrongKind Program",
        "jobctl: @/none.json: bad definition: NotObject -",
        "jobctl: @/latin.json: ",
    ])
    files_that_are_left_out(stage)


def files_that_are_left_out(stage):
    """A name that is not UTF-8, a FIFO, and a file of the kernel whose reads wait, each among others, as words or in a folder: it is named, and the others
    are loaded. A word that is not UTF-8 and names no file is no command. A pipe that the user names is read."""
    os.mkdir(stage.at("odd"))
    for name, text in ((b"a.json", "a"), (b"b\xff.json", "b"), (b"z.json", "z"), (b"y\xfe", "y")):
        make(os.path.join(os.fsencode(stage.at("odd")), name), text)
    os.mkfifo(stage.at("odd/pipe.json"))
    os.symlink("/proc/kmsg", stage.at("odd/kmsg.plist"))
    bad = '{"code":8,"text":"bad definition: NotJson -\\n"}\n'
    for words in (["@/odd"], [f"@/odd/{name}" for name in ("a.json", "b\udcff.json", "kmsg.plist", "pipe.json", "z.json")]):
        expect(stage, ["load", *words], replies=DONE + bad + DONE, status=65, asked=load("a") + load("") + load("z"), told=[
            "jobctl: @/odd/b\ufffd.json: its name is not UTF-8", "jobctl: @/odd/kmsg.plist:", "bad definition: NotJson -", "jobctl: @/odd/pipe.json: not a plain file",
        ])
    for words in (["stop", "\udcff"], ["load", "-F", "\udcff", "--socket", "s\udcff"], ["\udcff"], ["load", "--sock\udcff", "@/odd"]):
        expect(stage, words, IS_MISSING, status=64, told=["jobctl: an argument is not UTF-8"])
    with subprocess.Popen(["echo", "piped"], stdout=subprocess.PIPE) as echo:
        words = [*stage.given.jobctl, "--socket", "missing", "load", f"/dev/fd/{echo.stdout.fileno()}"]
        ran = subprocess.run(words, pass_fds=[echo.stdout.fileno()], cwd=stage.folder, capture_output=True, timeout=BOUND, text=True)
        check(ran.returncode == 69, f"a pipe is not read: {ran.returncode}, {ran.stderr!r}")


def a_reply_may_not_come(stage):
    """The connection ends before the reply, within it, or after the first of three."""
    make_files(stage)
    expect(stage, ["list"], status=69, asked=LISTED, told=["jobctl: jobd.sock: "])
    expect(stage, ["--socket", "s", "list"], replies='{"code":0,"text":"a"}', status=69, asked=LISTED, told=["jobctl: s: "], name="s")
    words = ["unload", "@/one.json", "@/two.plist", "@/one.json"]
    asked = '{"job":"one","req":"unload","w":false}\n{"job":"two","req":"unload","w":false}\n'
    expect(stage, words, replies=DONE, status=69, asked=asked, told=["jobctl: jobd.sock: "])


def what_comes_may_be_no_reply(stage):
    """No reply is another kind of value, a code past 255, no text, no JSON."""
    for replies in (
        "[]\n", '{"code":256,"text":""}\n', '{"code":"0","text":""}\n', '{"code":0}\n', '{"text":""}\n', '{"code":0,"text":0}\n',
        "hello\n", "\n",
    ):
        expect(stage, ["list"], replies=replies, status=69, asked=LISTED, told=["jobctl: jobd.sock: "])


def nobody_may_listen(stage):
    """That nobody listens at the socket is told once, but a file's own fault before it too."""
    make_files(stage)
    words = ["unload", "@/missing", "@/one.json", "@/two.plist"]
    expect(stage, words, IS_REFUSED, status=65, told=["jobctl: @/missing: ", "jobctl: jobd.sock: "])
    expect(stage, ["--socket", "@/s", "start", "a"], IS_MISSING, status=69, told=["jobctl: @/s: "])


def words_may_be_no_command(stage):
    """Words that are no command give 64 and are told; help is printed."""
    usage = (64, False, True)
    for words, wanted in [([], usage), (["load"], usage), (["start", "a/b"], usage), (["--help"], (0, True, False))]:
        seen = run(stage, words)
        got = (seen.status, bool(seen.printed), bool(seen.told))
        check(got == wanted, f"{words} gives status, whether it prints and whether it tells {got}, and not {wanted}")


def the_output_may_be_refused(stage):
    """A standard output that takes nothing gives 74, and a line that says why."""
    reply = '{"code":0,"text":"PID\\tStatus\\tLabel\\n"}\n'
    for words in (["list"], ["--help"]):
        with open("/dev/full", "wb") as full:
            seen = run(stage, words, replies=reply, output=full)
        lines = seen.told.splitlines()
        is_told = len(lines) == 1 and lines[0].startswith("jobctl: standard output: ")
        check(seen.status == 74 and is_told, f"{words} at an output that is full ends with {seen.status} and tells {seen.told!r}")


def the_outputs_reader_may_have_gone(stage):
    """A standard output whose reader has gone gives 141, and nothing is told. A shell says so too of a program that SIGPIPE ended."""
    reply = '{"code":0,"text":"PID\\tStatus\\tLabel\\n"}\n'
    for words in (["list"], ["--help"]):
        for heeds_pipes, statuses in ((False, (141,)), (True, (141, -signal.SIGPIPE))):
            reader, writer = os.pipe()
            os.close(reader)
            try:
                seen = run(stage, words, replies=reply, output=writer, heeds_pipes=heeds_pipes)
            finally:
                os.close(writer)
            is_so = seen.status in statuses and seen.told == ""
            check(is_so, f"{words} without a reader ends with {seen.status} and tells {seen.told!r}")


def no_answer_may_come(stage):
    """The launcher takes the connection, and says nothing or the half of a reply: that is told after the seconds of JOBCTL_TIMEOUT."""
    for replies in ("", '{"code":0,'):
        told = ["jobctl: jobd.sock: no answer within 1 s (JOBCTL_TIMEOUT)"]
        expect(stage, ["list"], IS_SILENT, replies, 69, LISTED, told=told, env={"JOBCTL_TIMEOUT": "1"})


def the_launcher_may_have_no_room(stage):
    """What is said before the connection ends is heard, also if nothing more can be asked: the longer request is more than what the system
    keeps of it, so it is not yet sent when the connection ends."""
    make_files(stage)
    many = '{"code":2,"text":"too many clients\\n"}\n'
    expect(stage, ["load", "@/fits.json"], HAS_NO_ROOM, many, 2, told=["too many clients"])
    expect(stage, ["load", "@/fits.json"], HAS_NO_ROOM, "", 69, told=["jobctl: jobd.sock: "])
    expect(stage, ["list"], HAS_NO_ROOM, many, 2, told=["too many clients"])
    expect(stage, ["list"], HAS_NO_ROOM, "", 69, told=["jobctl: jobd.sock: "])


def the_environment_is_read(stage):
    """The socket is that of the words, or else the environment's, or else `jobd.sock`. An empty variable says nothing. A time of 0 has no
    end, and one that is no number is refused."""
    other, given = {"JOBD_SOCKET": "/none/other.sock"}, ["--socket", "jobd.sock", "list"]
    expect(stage, ["list"], IS_MISSING, status=69, told=["jobctl: /none/other.sock: "], env=other)
    expect(stage, given, IS_MISSING, status=69, told=["jobctl: jobd.sock: "], env=other)
    expect(stage, ["list"], IS_MISSING, status=69, told=["jobctl: jobd.sock: "], env={"JOBD_SOCKET": "", "JOBCTL_TIMEOUT": ""})
    text = '{"code":0,"text":"a\\n"}\n'
    expect(stage, ["list"], replies=text, asked=LISTED, printed="a\n", env={"JOBCTL_TIMEOUT": "0"})
    expect(stage, ["list"], replies=text, status=64, told=["jobctl: JOBCTL_TIMEOUT: not a number of seconds"], env={"JOBCTL_TIMEOUT": "soon"})


def a_word_that_is_none_is_named(stage):
    """Of words that no parser refuses and that are no command one line says why."""
    for words, told in [
        (["start", "gui/501/a"], "gui/501/a is not a label (start takes a label; kickstart and print take a target)"),
        (["stop", "a/b"], "a/b is not a label (a label has 1 to 255 bytes, no / and no control character)"),
        (["enable", "a/b"], "a/b is not a target (a target is LABEL, system/LABEL, user/UID/LABEL or gui/UID/LABEL)"),
        (["enable", "gui/x/a"], "gui/x/a is not a target ("),
        (["print", "a\nb"], '"a\\nb" is not a target ('),
        (["start", ""], '"" is not a label ('),
    ]:
        expect(stage, words, status=64, told=[f"jobctl: {told}"])


def a_request_and_its_record_have_at_most_262144_bytes(stage):
    """Beside the definition the request has 43 bytes, and the journal's line has 69 if both answers of the outside are `false`."""
    path = stage.at("letters.json")
    for count, fault in ((262_075, None), (262_076, "line of the journal"), (262_101, "line of the journal"), (262_102, "request")):
        make(path, "n" * count)
        if fault:
            expect(stage, ["load", path], status=65, told=[f"jobctl: {path}: too long for a {fault}"])
        else:
            check(len(load("n" * count)) == 262_119, "the request has another length")
            expect(stage, ["load", path], replies=DONE, asked=load("n" * count))


def the_longest_record_fits_a_line(stage):
    """Of the longest definition that is handed in, and refused, the journal has a line that can be replayed; so it has with both answers of
    the outside `false`, which makes it 262,144 bytes long, and a line of one more can't be."""
    launcher = stage.serve(journal="journal")
    make(stage.at("letters.json"), "n" * 262_075)
    ran = stage.jobctl(["load", stage.at("letters.json")])
    check(ran.returncode == 8, f"a definition that is none ends with {ran.returncode}: {ran.stderr!r}")
    launcher.shut_down()
    header, *events = text_at(stage.at("journal")).splitlines()
    loads = [event for event in events if '"ev":"load"' in event]
    check(len(loads) == 1 and json.loads(loads[0])["def"] == "n" * 262_075, f"the journal has {len(loads)} loads")
    check(stage.replay("journal").returncode == 0, "the journal can't be replayed")
    longest = loads[0].replace(':true', ':false')
    check(len(longest) == 262_144, f"the longest record has {len(longest)} bytes")
    for line, status in ((longest, 0), (longest + " ", 4)):
        make(stage.at("again"), f"{header}\n{line}\n")
        got = stage.replay("again").returncode
        check(got == status, f"a journal with a line of {len(line)} bytes is replayed with {got}")


def a_reply_has_at_most_1048576_bytes(stage):
    """Beside its text the line has 20 bytes."""
    for count, fault in ((1_048_556, False), (1_048_557, True)):
        text = "n" * count
        seen = run(stage, ["list"], replies=f'{{"code":0,"text":"{text}"}}\n')
        if fault:
            check((seen.status, seen.printed) == (69, ""), f"a reply that is too long ends with {seen.status}")
            check(seen.told == "jobctl: jobd.sock: the reply is too long\n", f"of a reply that is too long it tells {seen.told!r}")
        else:
            check((seen.status, seen.told) == (0, ""), f"the longest reply ends with {seen.status}: {seen.told!r}")
            check(seen.printed == text, f"of the longest reply {len(seen.printed)} bytes are printed")


def replies_are_heard_one_by_one(stage):
    """Two replies of one piece are those of two requests, and no third one comes. The greatest code is a status."""
    make_files(stage)
    replies = '{"code":3,"text":"a\\n"}\n{"code":255,"text":"b\\n"}\n'
    asked = "".join(f'{{"job":"{label}","req":"unload","w":false}}\n' for label in ("one", "two", "one"))
    told = ["jobctl: @/one.json:", "a", "jobctl: @/two.plist:", "b", "jobctl: jobd.sock: "]
    expect(stage, ["unload", "@/one.json", "@/two.plist", "@/one.json"], replies=replies, status=3, asked=asked, told=told)
    expect(stage, ["list"], replies='{"code":255,"text":"b\\n"}\n', status=255, asked=LISTED, told=["b"])


def a_name_is_told_plainly(stage):
    """What others put into the name of a file or a socket moves no cursor, begins no line and turns no text."""
    make_files(stage)
    odd, told = "odd\x1b[2J\n\u202e", "odd\ufffd[2J\ufffd\ufffd"
    os.mkdir(stage.at(odd))
    expect(stage, ["load", f"@/{odd}"], told=[f"jobctl: @/{told}: no definition in this folder (*.plist, *.json)"])
    expect(stage, ["load", f"@/{odd}.json"], status=65, told=[f"jobctl: @/{told}.json: "])
    expect(stage, ["--socket", f"@/{odd}s", "list"], IS_MISSING, status=69, told=[f"jobctl: @/{told}s: "])
    for name in ("a.json", "b.json"):
        make(stage.at(f"{odd}/{name}"), "{}")
    note = '{"code":0,"text":"not acted on: X\\n"}\n'
    printed = f"jobctl: @/{told}/a.json:\nnot acted on: X\n"
    expect(stage, ["load", f"@/{odd}"], replies=note + DONE, asked=load("{}") * 2, printed=printed)


def a_terminal_is_told_what_says_where(stage):
    """Below the refusal of a faulty definition a terminal is told what says where its fault is. Nothing stands below another refusal; a file gets
    the refusal alone."""
    make_files(stage)
    faulty = '{"code":8,"text":"bad definition: BadType Program\\n"}\n'
    refusal = "bad definition: BadType Program\n"
    hint = placed(stage, "jobctl: `jobscope check @/bad.json` says where\n")
    for replies, wanted in ((faulty, refusal + hint), ('{"code":4,"text":"already loaded\\n"}\n', "already loaded\n")):
        terminal, ours = pty.openpty()
        seen = run(stage, ["load", "@/bad.json"], replies=replies, errors=ours)
        os.close(ours)
        told = read_terminal(terminal).decode().replace("\r\n", "\n")
        os.close(terminal)
        check((seen.status, told) == (json.loads(replies)["code"], wanted), f"a terminal is told {told!r}, with {seen.status}")
    expect(stage, ["load", "@/bad.json"], replies=faulty, asked=load(FILES["bad.json"]), status=8, told=[refusal.strip()])


SCENES = [
    each_command_makes_its_request, a_label_that_is_not_loaded_names_those_near_it, a_job_is_unloaded_by_its_label, texts_are_printed,
    a_folder_stands_for_its_files, a_folder_of_many_files, a_file_may_be_faulty, a_reply_may_not_come,
    what_comes_may_be_no_reply, nobody_may_listen, words_may_be_no_command, the_output_may_be_refused, the_outputs_reader_may_have_gone,
    no_answer_may_come, the_launcher_may_have_no_room, the_environment_is_read, a_word_that_is_none_is_named,
    a_request_and_its_record_have_at_most_262144_bytes, the_longest_record_fits_a_line, a_reply_has_at_most_1048576_bytes,
    replies_are_heard_one_by_one, a_name_is_told_plainly, a_terminal_is_told_what_says_where,
]
