#!/usr/bin/env python3
"""Compares numbers that stand in several pages with the source, over all pages: README.md, SECURITY.md, CONTRIBUTING.md, docs/, man/, bench/RESULTS.md
and the README.md of each crate. It needs no built program. `tests/pages.sh` runs it.

    tests/page_numbers.py

Of each fact the table has the source's number and the sentences in which pages name it: @ stands for the number, `~` for at most forty characters of one
sentence. Where a page has the sentence with another number, or no page has one of the sentences, that is a fault. One line a fault; the status is 1 if there is one.
"""
import glob
import os
import re
import sys

os.chdir(os.path.dirname(os.path.dirname(os.path.abspath(__file__))))

# The fact; the source; the form of its number there; what the number is multiplied by; and the sentences of pages.
FACTS = [
    ("loaded jobs", "crates/history_model/src/lib.rt", r"MAX_JOBS: usize = ([\d_]+)", 1,
     ["at most @ jobs", "@ (?:jobs )?are loaded", "meets? @ loaded jobs", "@ loaded jobs", "than @ jobs", "most @ jobs"]),
    ("answers of a turn", "crates/history_model/src/lib.rt", r"MAX_JOBS: usize = ([\d_]+)", 3, ["@ answers", "1 \\+ @ events"]),
    ("waiting connections", "crates/history_model/src/lib.rt", r"MAX_CONNECTIONS: usize = ([\d_]+)", 1,
     ["Of a job @ that wait", "@ connections that wait", "connections of a job\\?\\*\\* 1,024 and @", "one too many if @ wait"]),
    ("the default throttle", "crates/job_defs/src/demand.rt", r"KeyName::ThrottleInterval,\s*PACE_LEAST,\s*PACE_MOST,\s*([\d_]+)", 1,
     ["ThrottleInterval`? \\(@ if absent\\)", "Same: @ if absent. Own choices: it counts", "Integer, 0 to 86,400; @ if absent. The least",
      "throttle of @ seconds", "at the earliest \\(@ seconds where absent", "here @ seconds after its last start", "counts from the start; @ seconds if",
      "run 2 is due (ten) seconds after the first order", "`runs` grows each (ten) seconds", "would wait (ten) seconds more for nothing"]),
    ("the default time to stop", "crates/job_defs/src/demand.rt", r"KeyName::ExitTimeOut,\s*PACE_LEAST,\s*PACE_MOST,\s*([\d_]+)", 1,
     ["first TERM \\(@ if absent", "Same: @ if absent, 0 means never", "Integer, 0 to 86,400; @ if absent. The seconds from", "a timeout of @ seconds"]),
    ("minutes that are crossed", "crates/history_model/specs/Calendar.antt", r"less than (\d+) days", 1, ["@ days back", "less than @ days", "Less than @ days", "list of @ days", "minutes of @ days", "of the last @ days"]),
    ("days that are looked ahead", "crates/history_model/specs/NextRun.antt", r"at most (\d+) days", 1, ["most @ days are looked ahead", "starts it within @ days"]),
    ("a line", "crates/ctl_protocol/src/feed.rt", r"LINE_LIMIT: usize = ([\d_]+)", 1,
     ["(\\b262,\\d{3}\\b)", "@ bytes of a line", "journal, has more than @ bytes"]),
    ("a client's request", "crates/socket_demand/src/exchange.rt", r"MAX_REQUEST: usize = ([\d_]+)", 1,
     ["request fits @", "@ bytes of a connection's request", "half-closes, at most @", "@ bytes of (?:a )?request", "connection's end, and has at most @ bytes", "no request is longer than @ bytes",
      "what its client sent, @ bytes", "if it would pass @ bytes", "and no others, at most @"]),
    ("bytes of a reply that are kept", "crates/socket_demand/src/exchange.rt", r"MAX_UNSENT: usize = ([\d_]+)", 1, ["as far as @ unsent bytes"]),
    ("a zone file", "crates/calendar_due/src/zone.rt", r"LONGEST_FILE: usize = ([\d_]+)", 1, ["zone file past @ bytes", "@ bytes of a zone file"]),
    ("the file of places", "crates/launcher_places/src/reading.rt", r"LONGEST: usize = ([\d_]+)", 1, ["line of JSON of at most @ bytes", "of root, and has at most @ bytes"]),
    ("what apply waits besides", "crates/apply_folder/src/carried.rt", r"MORE: u64 = ([\d_]+)", 1, ["ExitTimeOut and @ seconds"]),
    ("labels with a setting", "crates/override_store/src/known.rt", r"MOST_LABELS: usize = ([\d_]+)", 1, ["@ labels (?:have one|with a setting)", "have a setting\\?\\*\\* @,"]),
    ("the timeout of jobctl", "crates/control_client/src/settings.rt", r"PATIENCE: u32 = ([\d_]+)", 1, ["no answer within @ s`", "its reply: @ if absent"]),
    ("the age of a client that goes", "crates/job_clients/src/places.rt", r"OLD: u64 = ([\d_]+)", 0.001, ["@ seconds old", "did so @ seconds ago", "@ seconds at a time"]),
    ("clients whose request comes", "crates/job_clients/src/callers.rt", r"CALLERS: usize = ([\d_]+)", 1, ["The room is @ at most", "clients are heard\\?\\*\\* @,", "@ connections of all jobs whose request"]),
    ("those of one job", "crates/job_clients/src/callers.rt", r"CALLERS_OF_A_JOB: usize = ([\d_]+)", 1, ["a third of it and @ at most", "a third and at most @ of one job", "@ connections of a job whose request still"]),
    ("connections that are held", "crates/child_edge/src/room.rt", r"MOST: u64 = ([\d_]+)", 1, ["\\+ 1` clients, @ at most", "one job has half of the @", "@ connections held of all jobs"]),
    ("a client that takes nothing", "crates/child_edge/src/connection.rt", r"PATIENCE: u64 = ([\d_]+)", 1,
     ["took nothing (?:of (?:it|the reply|its reply) )?for @ seconds", "took nothing for @ seconds", "writes that lie @ seconds apart"]),
    ("descriptors at least", "crates/child_edge/src/room.rt", r"FEWEST: u64 = ([\d_]+)", 1, ["fewer than @ descriptors", "\\): @ for itself", "those beyond @ and"]),
    ("lines of a client in a round", "crates/control_socket/src/turn.rt", r"LINES: u32 = ([\d_]+)", 1, ["in a round\\?\\*\\* @ of a client", "@ lines of a control client"]),
    ("clients of the control socket", "crates/control_socket/src/control.rt", r"CLIENTS: usize = ([\d_]+)", 1, ["@ clients of the control socket", "too many clients : @ are served"]),
    ("milliseconds of a part of a round", "crates/live_loop/src/round_time.rt", r"LONGEST: u64 = ([\d_]+)", 1, ["have @ ms each", "once @ ms are over"]),
    ("the longest wait of a round", "crates/live_loop/src/waiting.rt", r"LONGEST: u64 = ([\d_]+)", 1, ["within @ milliseconds", "waits @ ms at most", "doubled up to @ ms", "up to @ ms late"]),
    ("path checks in a round", "crates/live_loop/src/paths.rt", r"LOOKS: u32 = ([\d_]+)", 1, ["@ path checks", "once a second, @ a round"]),
    ("helper processes", "crates/look_out/src/left.rt", r"MOST: usize = ([\d_]+)", 1, ["@ helpers(?:,| at most)", "There are @ (?:helper|at most)", "are there\\?\\*\\* @ at most"]),
    ("the pause after a hang", "crates/look_out/src/hung.rt", r"PEACE: u64 = ([\d_]+)", 0.001, ["one start each (ten) seconds", "retries that place every (ten) seconds"]),
    ("the least wait beside a hang", "crates/look_out/src/spare.rt", r"LEAST: u64 = ([\d_]+)", 1, ["a start waits @ ms"]),
    ("entries of a line of cron", "crates/definition_files/src/cron/entries.rt", r"MOST_ENTRIES: usize = ([\d_]+)", 1, ["more than @ entries", "no @ entries say"]),
    ("runs of the median", "crates/scope/src/journal/past.rt", r"MOST_RUNS: usize = ([\d_]+)", 1, ["that of the last @ runs", "the last @ runs that are over"]),
    ("labels of a journal", "crates/scope/src/journal/past.rt", r"MOST_LABELS: usize = ([\d_]+)", 1, ["labels beyond @", "@ labels are kept"]),
    ("bars and marks", "crates/run_times/src/picture/gathering.rt", r"MOST: usize = ([\d_]+)", 1, ["at most @ bars and marks"]),
    ("seconds at least for what a killed launcher left", "contrib/jobd-run", r"(?m)^least=(\d+)", 1, ["at least @ (?:seconds )?and at most 1", "@ seconds at least and 1", "files, @ to 1\\d+ seconds"]),
    ("seconds at most for what a killed launcher left", "contrib/jobd-run", r"(?m)^most=(\d+)", 1, ["at least \\d+(?: seconds)? and at most @", "seconds at least and @ at most", "files, \\d+ to @ seconds"]),
]
NAMED = {"ten": "10"}
# Facts that pages have in letters: where the source has another number, the sentence is to be mended.
LETTERS = [
    ("half a second", "crates/look_out/src/spare.rt", r"PATIENCE: u64 = ([\d_]+)", "500"),
    ("one second, refilled at half speed", "crates/look_out/src/spare.rt", r"SPARE: u64 = ([\d_]+)", "1000"),
    ("Eight", "crates/child_edge/src/reserve.rt", r"MOST: usize = ([\d_]+)", "8"),
    ("once a second", "crates/control_socket/src/accepting.rt", r"BETWEEN_LOOKS: u64 = ([\d_]+)", "1000"),
]
NUMERALS = "No One Two Three Four Five Six Seven Eight Nine Ten Eleven Twelve Thirteen Fourteen Fifteen Sixteen Seventeen Eighteen Nineteen Twenty".split()


def read(path):
    with open(path, encoding="utf-8") as it:
        return it.read()


def waiting_faults(pages):
    """How many functions may wait for ever, by crates.txt, in the words of two pages."""
    counts = {crate: int(count) for crate, count in re.findall(r"(?m)^(\w+) may_wait=(\d+):", read("crates.txt"))}
    wanted = [("docs/PROVED.md", f"{NUMERALS[sum(counts.values())]} functions of {NUMERALS[len(counts)].lower()} crates may wait for ever"),
              ("docs/PROMISES.md", f"{NUMERALS[counts['scope']]} of its functions may wait for ever")]
    return [f"{path}: {words!r} is not there, as crates.txt has it" for path, words in wanted if words not in pages[path]]


def plain(path):
    """The page as one line, without marks of Markdown and without macros."""
    text = read(path)
    if path.startswith("man/"):
        rows = [re.sub(r"^\.(?:Xr|Pa|Ql|Va|Ev|Fl|Ar|Cm|Pq|Em|Nm|It|Dl|Sx)\b ?", "", row) for row in text.splitlines()]
        text = " ".join(re.sub(r"\b(?:Pq|Ql|Cm|Va|Fl|Ar|Ns) ", "", row) for row in rows if not row.startswith("."))
    return " ".join(text.split())


def main():
    names = ("README.md", "SECURITY.md", "CONTRIBUTING.md", "bench/RESULTS.md")
    pages = {path: plain(path) for path in sorted([*names, *glob.glob("docs/*.md"), *glob.glob("man/*.[158]"), *glob.glob("crates/*/README.md")])}
    faults, places = [], 0
    for what, source, form, times, sentences in FACTS:
        row = re.search(form, read(source))
        if row is None:
            faults.append(f"{source}: nothing there is {form}")
            continue
        wanted = f"{int(int(row.group(1).replace('_', '')) * times):,}"
        for sentence in sentences:
            wild = re.compile(sentence.replace("@", r"(\d[\d,]*)").replace("~", r"[^.]{0,40}"))
            found = [(path, it) for path, text in pages.items() for it in wild.finditer(text)]
            places += len(found)
            for path, it in found:
                number = NAMED.get(it.group(1), it.group(1)).rstrip(",")
                if number != wanted:
                    faults.append(f"{path}: {what}: {it[0]!r}, and {source} has {wanted}")
        if not any(re.search(it.replace("@", r"\d[\d,]*").replace("~", r"[^.]{0,40}"), text) for it in sentences for text in pages.values()):
            faults.append(f"no page names {what} in these words: {sentences}")
    for words, source, form, wanted in LETTERS:
        row = re.search(form, read(source))
        if row is None or row.group(1).replace("_", "") != wanted:
            faults += [f"{path}: {words!r}, and {source} has {row.group(1) if row else 'no such number'}" for path, text in pages.items() if words in text]
    faults += waiting_faults(pages)
    for fault in faults:
        print("pages:", fault, file=sys.stderr)
    if faults:
        return 1
    print(f"pages: {len(FACTS) + len(LETTERS) + 2} facts agree with the source in {places} places of {len(pages)} pages")
    return 0


if __name__ == "__main__":
    sys.exit(main())
