#!/usr/bin/env python3
"""Checks what contrib/to-kubernetes writes against the classes of Kubernetes' API that Debian's python3-kubernetes has (API 1.22, made from the API's own
OpenAPI text): each key is known, each value has the key's type, and what is required is there. It types the lines of docs/BEYOND-ONE-MACHINE.md too.

    /usr/bin/python3 tests/kubernetes.py [PROGRAMS]

No cluster is asked. It is run by hand. timeZone of a CronJob is younger than these classes (1.27), so it is looked at by this script alone.
"""
import json
import os
import re
import subprocess
import sys
import tempfile

sys.dont_write_bytecode = True
TOP = os.path.dirname(os.path.dirname(os.path.abspath(__file__)))
# The package has this script's own name.
sys.path[:] = [it for it in sys.path if os.path.realpath(it or ".") != f"{TOP}/tests"]
try:
    from kubernetes.client import models
except ImportError:
    sys.exit("kubernetes: apt-get install python3-kubernetes, and run it by /usr/bin/python3")
sys.path.insert(0, f"{TOP}/tests")
from typed_page import type_page

KINDS = {("batch/v1", "CronJob"): "V1CronJob", ("apps/v1", "Deployment"): "V1Deployment", ("apps/v1", "StatefulSet"): "V1StatefulSet"}
YOUNGER = {("V1CronJobSpec", "timeZone"): str}
PLAIN = {"str": str, "int": int, "bool": bool}
NAME = re.compile(r"[a-z0-9]([-a-z0-9]*[a-z0-9])?")


def faults_of(value, kind, at):
    """What the API's classes have against this value."""
    if kind in PLAIN:
        if not isinstance(value, PLAIN[kind]) or (kind == "int" and isinstance(value, bool)):
            yield f"{at}: {value!r} is no {kind}"
    elif kind == "object":
        return
    elif (it := re.fullmatch(r"list\[(.*)\]", kind)):
        if not isinstance(value, list):
            yield f"{at}: no list"
            return
        for number, one in enumerate(value):
            yield from faults_of(one, it[1], f"{at}[{number}]")
    elif (it := re.fullmatch(r"dict\(str, (.*)\)", kind)):
        if not isinstance(value, dict):
            yield f"{at}: no object"
            return
        for key, one in value.items():
            yield from faults_of(one, it[1], f"{at}.{key}")
    else:
        yield from faults_in_object(value, kind, at)


def faults_in_object(value, kind, at):
    model = getattr(models, kind, None)
    if model is None:
        yield f"{at}: the classes have no {kind}"
        return
    if not isinstance(value, dict):
        yield f"{at}: no object"
        return
    known = {name: own for own, name in model.attribute_map.items()}
    for key, one in value.items():
        if (kind, key) in YOUNGER:
            if not isinstance(one, YOUNGER[kind, key]):
                yield f"{at}.{key}: {one!r}"
        elif key not in known:
            yield f"{at}.{key}: {kind} has no such key"
        else:
            yield from faults_of(one, model.openapi_types[known[key]], f"{at}.{key}")
    # The class refuses to be made without what is required.
    try:
        model(**{known[key]: one for key, one in value.items() if key in known})
    except ValueError as fault:
        yield f"{at}: {fault}"


def faults(manifest):
    for it in manifest["items"] if manifest.get("kind") == "List" else [manifest]:
        kind = KINDS.get((it.get("apiVersion"), it.get("kind")))
        if kind is None:
            yield f"{it.get('apiVersion')}, {it.get('kind')}: what is that?"
            continue
        yield from faults_in_object(it, kind, it["kind"])
        name = it["metadata"]["name"]
        if not NAME.fullmatch(name) or len(name) > (52 if it["kind"] == "CronJob" else 63):
            yield f"{it['kind']}: {name} is no name there"
        template = it["spec"].get("jobTemplate", it)["spec"]["template"]
        selector = it["spec"].get("selector", {}).get("matchLabels", {})
        if not selector.items() <= template["metadata"]["labels"].items():
            yield f"{it['kind']}: its selector does not match its pod"


def fail(text):
    sys.exit(f"kubernetes: {text}")


def convert(*words, status=0):
    done = subprocess.run([f"{TOP}/contrib/to-kubernetes", *words], capture_output=True, text=True)
    if done.returncode != status:
        fail(f"to-kubernetes {' '.join(words)}: status {done.returncode}, not {status}: {done.stderr}")
    return done


def wants(manifest, path, value):
    found = manifest
    for step in path.split("."):
        found = found[int(step) if step.isdigit() else step]
    if found != value:
        fail(f"{path} is {found!r}, not {value!r}")


def define(folder, name, **keys):
    path = f"{folder}/{name}.json"
    with open(path, "w", encoding="utf-8") as it:
        json.dump({"Label": f"org.example.{name}", "ProgramArguments": ["/bin/sh", "-c", "echo $(HOME)"], **keys}, it)
    return path


POD = "spec.jobTemplate.spec.template.spec"
counts = {"manifests": 0, "refused": 0, "lines": 0}


def one(path, *words):
    done = convert("--image", "jobs:1", "--zone", "Europe/Berlin", *words, path)
    made = json.loads(done.stdout)
    found = list(faults(made))
    if found:
        fail(f"{path}: {'; '.join(found)}")
    counts["manifests"] += 1
    counts["lines"] += len(done.stderr.splitlines())
    return made, done.stderr


def try_meanings(folder):
    made, told = one(define(folder, "nightly", StartCalendarInterval={"Hour": 3, "Minute": 30}, ExitTimeOut=45, EnvironmentVariables={"A": "$(B)", "C": 1},
                            WorkingDirectory="/srv", ThrottleInterval=90, RunAtLoad=True, Nice=5))
    for path, value in (("spec.schedule", "30 3 * * *"), ("spec.timeZone", "Europe/Berlin"), ("spec.concurrencyPolicy", "Forbid"), ("spec.suspend", False),
                        (f"{POD}.terminationGracePeriodSeconds", 45), (f"{POD}.restartPolicy", "Never"), ("spec.jobTemplate.spec.backoffLimit", 0),
                        (f"{POD}.containers.0.env", [{"name": "A", "value": "$$(B)"}]), (f"{POD}.containers.0.workingDir", "/srv"),
                        (f"{POD}.containers.0.command", ["/bin/sh", "-c", "echo $$(HOME)"])):
        wants(made, path, value)
    for key in ("EnvironmentVariables.C", "ThrottleInterval", "RunAtLoad", "Nice", "concurrencyPolicy"):
        if f"{key}: " not in told:
            fail(f"no line for {key}: {told}")
    made, _ = one(define(folder, "lists", StartCalendarInterval=[{"Minute": 30, "Weekday": 7}, {"Minute": 0, "Weekday": 7}]))
    wants(made, "spec.schedule", "0,30 * * * 0")
    made, told = one(define(folder, "two", StartCalendarInterval=[{"Minute": 0, "Hour": 1}, {"Minute": 30, "Hour": 2}], Disabled=True))
    wants(made, "items.0.spec.schedule", "0 1 * * *")
    wants(made, "items.1.spec.schedule", "30 2 * * *")
    wants(made, "items.1.spec.suspend", True)
    wants(made, "items.1.metadata.name", "org-example-two-2")
    if "2 CronJobs" not in told:
        fail(f"two CronJobs are not told: {told}")
    for seconds, line in ((60, "* * * * *"), (300, "*/5 * * * *"), (3600, "0 * * * *"), (14400, "0 */4 * * *"), (86400, "0 0 * * *")):
        made, _ = one(define(folder, f"each-{seconds}", StartInterval=seconds))
        wants(made, "spec.schedule", line)
        if "timeZone" in made["spec"]:
            fail("an interval has a zone")
    made, told = one(define(folder, "web", KeepAlive=True, ThrottleInterval=5, StandardOutPath="web.log", ExitTimeOut=0, Program="/bin/webd"), "--namespace", "jobs")
    for path, value in (("kind", "Deployment"), ("spec.replicas", 1), ("spec.strategy.type", "Recreate"), ("metadata.namespace", "jobs"),
                        ("spec.template.spec.terminationGracePeriodSeconds", 86400), ("spec.template.spec.containers.0.command", ["/bin/webd", "-c", "echo $$(HOME)"])):
        wants(made, path, value)
    for key in ("ThrottleInterval", "StandardOutPath", "ExitTimeOut"):
        if f"{key}: " not in told:
            fail(f"no line for {key}: {told}")
    made, _ = one(define(folder, "x" * 60, StartInterval=60))
    for keys in ({}, {"WatchPaths": ["/a"], "KeepAlive": True}, {"KeepAlive": {"SuccessfulExit": False}}, {"StartInterval": 70}, {"Sockets": {"a": {}}},
                 {"StartInterval": 60, "StartCalendarInterval": {}}, {"LaunchOnlyOnce": True, "StartInterval": 60}, {"StartCalendarInterval": {"Hour": 24}}):
        done = convert("--image", "jobs:1", define(folder, "refused", **keys), status=1)
        if done.stdout or "error: " not in done.stderr:
            fail(f"{keys}: {done.stdout}{done.stderr}")
        counts["refused"] += 1
    made, _ = one(f"{folder}/nightly.json", "--launcher", f"{folder}/web.json", f"{folder}/two.json")
    wants(made, "spec.template.spec.terminationGracePeriodSeconds", 55)
    wants(made, "spec.replicas", 1)
    convert("x.json", status=64)
    convert("--image", "jobs:1", f"{folder}/none.json", status=1)


def try_reader(folder):
    """The reader itself refuses what is wrong."""
    good = json.loads(convert("--image", "jobs:1", f"{folder}/nightly.json").stdout)
    for path, value in (("spec.scedule", "x"), ("spec.suspend", "no"), (f"{POD}.containers.0.image", 1), (f"{POD}.containers", {}), ("spec.jobTemplate", None)):
        text = json.dumps(good)
        bad = json.loads(text)
        *steps, last = path.split(".")
        at = bad
        for step in steps:
            at = at[int(step) if step.isdigit() else step]
        if value is None:
            del at[last]
        else:
            at[last] = value
        if not (list(faults(bad)) if value is not None else list(faults_in_object(bad["spec"], "V1CronJobSpec", "spec"))):
            fail(f"the reader takes {path} = {value!r}")


def main():
    programs = os.path.realpath(sys.argv[1] if len(sys.argv) > 1 else f"{TOP}/build")
    with tempfile.TemporaryDirectory() as folder:
        try_meanings(folder)
        try_reader(folder)
    with tempfile.TemporaryDirectory() as folder:
        typed = type_page(f"{TOP}/docs/BEYOND-ONE-MACHINE.md", "kubernetes", f"{programs}:{TOP}/contrib", folder, variables={"JOBS": f"{TOP}/examples/jobs"})
        if not typed:
            sys.exit(1)
        for name in os.listdir(folder):
            if name.endswith(".manifest.json"):
                with open(f"{folder}/{name}", encoding="utf-8") as it:
                    found = list(faults(json.load(it)))
                if found:
                    fail(f"{name}: {'; '.join(found)}")
                counts["manifests"] += 1
    print(f"kubernetes: {counts['manifests']} manifests meet the API's classes, {counts['refused']} definitions are refused, {typed} lines of the page were typed")


main()
