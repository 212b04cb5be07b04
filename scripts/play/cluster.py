#!/usr/bin/env python3
"""Has the tools of a cluster and of systemd read the examples of docs/availability.md, and simulates a failover.

    python3 scripts/play/cluster.py

crm_verify and crm_simulate (Debian: pacemaker-cli-utils) read examples/cluster/cib.xml; of two machines that are up one
has to get the disk, the folder, the address, the server, its watch and the night's timer; when that one fails, it has to
be fenced before anything starts on the other, and there in this order. When the watch has ended, its machine has to be
fenced too. drbdadm (drbd-utils) has to read each holddesk.res as a machine of that name, and corosync its configuration;
systemd-analyze the units, with the programs that they name in place, and the watch's command has to end where the server
runs and isn't well, and nowhere else. What isn't there is told as skipped. It needs no
cluster and starts none. Needs Python 3. Status 0: all that could be tried is so.
"""

import contextlib
import os
import re
import shutil
import subprocess
import sys
import tempfile

sys.path.append(os.path.dirname(sys.path[0]))  # scripts/

from server import SECONDS, TOP, Trouble, reported

EXAMPLES = os.path.join(TOP, "examples")
CLUSTER = os.path.join(EXAMPLES, "cluster")
CIB = os.path.join(CLUSTER, "cib.xml")
UNITS = ["holddesk.service", "holddesk-watch.service", "holddesk-night.service", "holddesk-night.timer"]
OLDER = "drbdadm-84"  # drbdadm's part for DRBD 8.4
MACHINES = ["desk1", "desk2"]
GROUP = ["folder", "address", "desk", "watch", "night"]
# what DRBD's agent says of a machine whose disk is up to date: it may have the disk
CAN_HAVE_THE_DISK = """<node_state id="{id}" uname="desk{id}" in_ccm="true" crmd="online" join="member" expected="member">
<transient_attributes id="{id}"><instance_attributes id="status-{id}">
<nvpair id="status-{id}-disk" name="master-disk" value="10000"/></instance_attributes></transient_attributes>
<lrm id="{id}"><lrm_resources/></lrm></node_state>"""


def said(*words):
    """What a command says on standard output; it has to end well."""
    done = subprocess.run(words, capture_output=True, text=True, timeout=SECONDS, check=False)
    if done.returncode:
        raise Trouble(f"{' '.join(words)} ends with {done.returncode}: {done.stdout}{done.stderr}")
    return done.stdout


def said_as(machine, command):
    """What a command says where the machine has this name."""
    return said("unshare", "--uts", "--user", "--map-root-user", "sh", "-c", f"hostname {machine} && exec {command}")


def transition(path, *words):
    """The actions that Pacemaker would take, in their order, and where everything is then."""
    text = said("crm_simulate", "--xml-file", path, "--simulate", "--save-output", path, *words)
    actions = re.findall(r"^  \* (?:Resource action: +|Fencing |Pseudo action: +)(\S.*)$", text, re.M)
    return [re.sub(" +", " ", action) for action in actions], text.partition("Revised Cluster Status")[2]


def place_of(actions, action):
    """Where an action stands among all."""
    if action not in actions:
        raise Trouble(f"Pacemaker wouldn't do {action!r}, but {actions!r}")
    return actions.index(action)


def see_order(actions, *wanted):
    """Looks that actions are taken in this order."""
    places = [place_of(actions, action) for action in wanted]
    if places != sorted(places):
        raise Trouble(f"Pacemaker would do {actions!r}, wanted in this order {wanted!r}")


def starts_on(machine):
    """The start of the group on a machine."""
    return [f"{name} start on {machine}" for name in GROUP]


def compare_cib(folder):
    """Has Pacemaker's tools read the configuration, and simulates failures."""
    path = os.path.join(folder, "cib.xml")
    with open(CIB, encoding="utf-8") as file:
        text = file.read()
    states = "".join(CAN_HAVE_THE_DISK.format(id=number) for number in (1, 2))
    with open(path, "w", encoding="utf-8") as file:
        text = text.replace("<cib ", '<cib have-quorum="1" dc-uuid="1" ')
        file.write(text.replace("<status/>", f"<status>{states}</status>"))
    if noise := said("crm_verify", "--xml-file", path):
        raise Trouble(f"crm_verify says {noise!r}")
    transition(path)
    actions, status = transition(path)
    machine = re.search(r"folder\s.*Started (desk\d)", status)
    if not machine:
        raise Trouble(f"nothing is started: {status}")
    at, [other] = machine[1], [it for it in MACHINES if it != machine[1]]
    kept = os.path.join(folder, "kept.xml")
    shutil.copy(path, kept)
    actions, status = transition(path, "--node-fail", at)
    see_order(actions, f"{at} (reboot)", next((it for it in actions if re.fullmatch(rf"disk\S* promote on {other}", it)),
                                              "disk promote"), *starts_on(other))
    for name in GROUP:
        if not re.search(rf"\* {name}\s.*Started {other}\n", status):
            raise Trouble(f"after a failure of {at} {name} isn't on {other}: {status}")
    shutil.copy(kept, path)
    actions, _ = transition(path, "--op-inject", f"watch_monitor_10000@{at}=7")
    see_order(actions, f"{at} (reboot)", *starts_on(other))


def compare_drbd(_):
    """Has drbdadm read the resource, by the name of each machine; and the one of DRBD 8.4, where it has that too."""
    older = next(filter(os.path.exists, [os.path.join(os.path.dirname(shutil.which("drbdadm")), "..", "lib", "drbd", OLDER),
                                         f"/lib/drbd/{OLDER}"]), None)
    for tool, name in (("drbdadm", "holddesk.res"), (older, "holddesk-8.4.res")):
        for machine in MACHINES if tool else []:
            told = said_as(machine, f"{tool} -c {CLUSTER}/{name} dump holddesk")
            if not re.search(r"protocol +C;", told) or not re.search(r"fencing +resource-and-stonith;", told):
                raise Trouble(f"{tool} reads {told!r}")


def compare_corosync(folder):
    """Has corosync read its configuration, with a key and a folder of its own."""
    path, key = os.path.join(folder, "corosync.conf"), os.path.join(folder, "key")
    shutil.copy(os.path.join(CLUSTER, "corosync.conf"), path)
    with open(path, "a", encoding="utf-8") as file:
        file.write(f"totem {{\n  keyfile: {key}\n}}\nsystem {{\n  state_dir: {folder}\n}}\n")
    with open(key, "wb") as file:
        file.write(os.urandom(256))
    os.chmod(key, 0o400)
    for machine in MACHINES:
        said_as(machine, f"corosync -t -c {path}")


def compare_watch(path, folder):
    """Runs the watch's command with commands in the place of systemctl and holddesk, and without its pauses: it has to
    end where the server runs and isn't well, and else go on."""
    programs = os.path.join(folder, "fake")
    os.mkdir(programs)
    for name in ("systemctl", "holddesk"):
        with open(os.path.join(programs, name), "w", encoding="ascii") as file:
            file.write(f"#!/bin/sh\nexit ${name}\n")
        os.chmod(file.name, 0o755)
    with open(path, encoding="utf-8") as file:
        command = re.search(r"ExecStart=/bin/sh -c '(.*?)'\n", file.read(), re.S)[1]
    command = re.sub(r"\S+/bin/holddesk", "holddesk", command.replace("\\\n", "").replace("$$", "$"))
    for systemctl, holddesk, wanted in (("0", "0", None), ("0", "1", 1), ("3", "1", None)):
        found = ended_soon(["sh", "-c", command.replace("sleep 5", "sleep 0.1")],
                           {"PATH": f"{programs}:{os.environ['PATH']}", "systemctl": systemctl, "holddesk": holddesk})
        if found != wanted:
            raise Trouble(f"the watch ends with {found} where systemctl ends with {systemctl} and status with {holddesk}")


def ended_soon(words, more):
    """The status of a command; none where it goes on for two seconds."""
    with contextlib.suppress(subprocess.TimeoutExpired):
        return subprocess.run(words, timeout=2, check=False, env={**os.environ, **more}).returncode
    return None


def compare_units(folder):
    """Has systemd read the units, with programs in the place of those that they name."""
    root = os.path.join(folder, "prefix")
    os.makedirs(os.path.join(root, "bin"))
    os.symlink("/bin/true", os.path.join(root, "bin", "holddesk"))
    paths = []
    for name in UNITS:
        with open(os.path.join(EXAMPLES, name), encoding="utf-8") as file:
            text = file.read().replace("@PREFIX@", root).replace("Documentation=man:holddesk(1)\n", "")
        paths.append(os.path.join(folder, name))
        with open(paths[-1], "w", encoding="utf-8") as file:
            file.write(text)
    drop_in = os.path.join(folder, "holddesk-night.service.d")
    os.mkdir(drop_in)
    with open(os.path.join(CLUSTER, "night.conf"), encoding="utf-8") as file, \
            open(os.path.join(drop_in, "cluster.conf"), "w", encoding="utf-8") as copy:
        copy.write(file.read().replace("/usr/local", root).replace("+crm_resource", "+/bin/true"))
    compare_watch(paths[UNITS.index("holddesk-watch.service")], folder)
    done = subprocess.run(["systemd-analyze", "verify", "--man=no", *paths], capture_output=True, text=True,
                          timeout=SECONDS, check=False, env={**os.environ, "SYSTEMD_UNIT_PATH": f"{folder}:"})
    told = [line for line in (done.stdout + done.stderr).splitlines() if "holddesk" in line]
    if done.returncode or told:
        raise Trouble(f"systemd-analyze verify ends with {done.returncode} and says {told or done.stderr!r}")


def compare_all():
    """Tries everything for which there are tools: what was tried, and what was skipped."""
    tried, skipped = [], []
    for name, tool, compare in (
            ("a failover", "crm_simulate", compare_cib), ("the disk", "drbdadm", compare_drbd),
            ("the links", "corosync", compare_corosync), ("the units", "systemd-analyze", compare_units)):
        if shutil.which(tool):
            with tempfile.TemporaryDirectory() as folder:
                compare(folder)
            tried.append(name)
        else:
            skipped.append(f"{name} (no {tool})")
    return tried, skipped


def main():
    tried, skipped = reported("cluster", compare_all)
    print(f"cluster: read as they have to be: {', '.join(tried) or 'none'}"
          f"{'; skipped: ' if skipped else ''}{', '.join(skipped)}")


if __name__ == "__main__":
    main()
