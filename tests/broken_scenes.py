#!/usr/bin/env python3
"""Plays scenes of tests/scenes/jobs.py and users.py over a launcher whose calls of the system go wrong, and sees that it fails.

    tests/broken_scenes.py [--jobd WORDS] [--jobctl WORDS] [WORD..]

The calls are those of broken_calls.c, which is compiled by `cc` and loaded before the launcher's own library: what a wrong body would do
can then be seen without another build. WORDS start the programs of `build/` if nothing else is said. Without a WORD of BROKEN
each is tried. A line for each says what the scene saw, or that it saw nothing; the status is 1 if one saw nothing. BOUND in the
environment is for how many seconds a fact is waited for, 5 if it is not set.
"""
import argparse
import os
import subprocess
import sys
import tempfile

TOP = os.path.dirname(os.path.dirname(os.path.abspath(__file__)))
BUILD = os.path.join(TOP, "build")

# What goes wrong, and the scenes that are to see it.
BROKEN = {
    "codes_have_seven_bits": ["ends_of_children"],
    "output_is_cut": ["streams_of_children"],
    "a_variable_is_lost": ["words_and_surroundings", "a_first_job_and_a_client", "what_is_around_a_job"],
    "a_refused_open_leaves_a_descriptor": ["refused_starts"],
    "nothing_is_told": ["refused_starts", "room_for_three"],
    "lines_are_told_twice": ["a_reason_is_told_once"],
    "stamps_are_cut": ["sights_and_the_clock"],
    "stamps_stand_still": ["demands_of_jobs"],
    "a_file_that_comes_is_not_seen": ["jobs_kept_while_a_file_is_there"],
    "kill_is_lost": ["ends_of_jobs", "a_shutdown_that_kills"],
    "the_child_is_waited_for": ["two_jobs_at_once"],
    "settings_are_lost": ["settings_outlive_the_launcher", "a_launcher_that_was_killed"],
    "dropped_lines_are_not_told": ["sights_that_are_refused"],
    "modes_stay": ["sockets_of_a_job", "files_of_the_control_socket"],
    "spool_files_are_public": ["sockets_of_a_job"],
    "spool_files_stay": ["sockets_of_a_job", "clients_at_the_end", "a_launcher_that_was_killed"],
    "whatever_is_there_is_replaced": ["places_of_sockets"],
    "ports_are_bound_anywhere": ["ports_of_a_job"],
    "a_short_reply_waits": ["replies_as_they_grow", "a_first_job_and_a_client", "callers_of_jobs"],
    "a_byte_is_lost": ["replies_as_they_grow"],
    "a_taken_name_is_opened": ["names_in_the_spool_are_taken"],
    "all_spool_files_are_one": ["spool_files_that_change"],
    "clients_take_all": ["replies_that_nobody_takes", "room_for_three", "replies_read_late"],
    "all_files_are_one": ["a_socket_that_was_put_there", "files_that_were_put_there"],
    "half_a_line_is_one": ["requests_in_pieces"],
    "lines_are_joined": ["lines_of_262144_bytes"],
    "locks_are_shared": ["a_path_with_one_launcher", "starts_that_are_refused"],
    "a_lock_stays": ["files_of_the_control_socket", "a_path_with_one_launcher"],
}


def read_words():
    words = argparse.ArgumentParser()
    words.add_argument("--jobd", default=os.path.join(BUILD, "jobd"))
    words.add_argument("--jobctl", default=os.path.join(BUILD, "jobctl"))
    words.add_argument("broken", nargs="*", metavar="WORD", choices=[[], *BROKEN])
    return words.parse_args()


def seen(given, library, word, scene):
    """What the scene saw, or nothing."""
    jobd = f"/usr/bin/env LD_PRELOAD={library} BREAK={word} {given.jobd}"
    command = [sys.executable, os.path.join(TOP, "tests", "scenes", "play.py"), "--once", "--jobd", jobd, "--jobctl", given.jobctl, scene]
    run = subprocess.run(command, capture_output=True, text=True, env={"BOUND": "5", **os.environ})
    lines = [line for line in run.stdout.splitlines() if line.startswith("FAILED ")]
    return lines[0].partition(": ")[2] if lines else ""


def main():
    given = read_words()
    unseen = 0
    with tempfile.TemporaryDirectory() as folder:
        library = os.path.join(folder, "calls.so")
        subprocess.run(["cc", "-shared", "-fPIC", "-O1", "-o", library, os.path.join(TOP, "tests", "broken_calls.c")], check=True)
        for word in given.broken or BROKEN:
            for scene in BROKEN[word]:
                why = seen(given, library, word, scene)
                unseen += not why
                print(f"{'seen' if why else 'NOT SEEN'}: {word} by {scene}: {why[:200]}", flush=True)
    print(f"{unseen} not seen")
    return 1 if unseen else 0


if __name__ == "__main__":
    sys.exit(main())
