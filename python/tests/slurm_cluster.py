"""A Slurm cluster on the loopback, for tests: slurmctld and slurmd started by hand, without systemd and munge."""
from __future__ import annotations

import os
import shutil
import signal
import socket
import subprocess
import time
from pathlib import Path
from typing import Dict, List, Optional, Set

WAIT = 120.0
NODES = ("one", "two")

CONFIG = """
ClusterName=tests
SlurmctldHost=localhost(127.0.0.1)
SlurmctldPort={controller}
SlurmUser=root
SlurmdUser=root
AuthType=auth/none
CredType=cred/none
StateSaveLocation={folder}/state
SlurmdSpoolDir={folder}/spool/%n
SlurmctldPidFile={folder}/slurmctld.pid
SlurmdPidFile={folder}/slurmd.%n.pid
SlurmctldLogFile={folder}/slurmctld.log
SlurmdLogFile={folder}/slurmd.%n.log
ProctrackType=proctrack/linuxproc
TaskPlugin=task/none
JobAcctGatherType=jobacct_gather/none
SwitchType=switch/none
MpiDefault=none
MailProg=/bin/true
ReturnToService=2
SlurmdTimeout=20
KillWait=2
MaxArraySize={largest}
SelectType=select/cons_tres
SelectTypeParameters=CR_Core
SchedulerParameters=sched_interval=2,sched_min_interval=0,batch_sched_delay=0
{nodes}
PartitionName=all Nodes={names} Default=YES MaxTime=INFINITE State=UP
"""


def free_port() -> int:
    """A port of the loopback that nobody listens on just now."""
    with socket.socket() as it:
        it.bind(("127.0.0.1", 0))
        return int(it.getsockname()[1])


class Cluster:
    """Two nodes of two processors each on this machine. `start` sets `SLURM_CONF`, `stop` sets it back."""

    def __init__(self, folder: Path, largest: int = 1001) -> None:
        self.folder = folder
        self.former: Optional[str] = None
        self.started: Dict[str, "subprocess.Popen[bytes]"] = {}
        (folder / "state").mkdir(parents=True)
        nodes = "\n".join(
            f"NodeName={name} NodeHostname=localhost NodeAddr=127.0.0.1 Port={free_port()} CPUs=2 "
            f"RealMemory=4000 State=UNKNOWN"
            for name in NODES
        )
        for name in NODES:
            (folder / "spool" / name).mkdir(parents=True)
        self.config = folder / "slurm.conf"
        self.config.write_text(
            CONFIG.format(folder=folder, controller=free_port(), nodes=nodes, names=",".join(NODES), largest=largest)
        )

    def start(self) -> "Cluster":
        """Starts the controller and the nodes, and waits until they are ready."""
        self.former = os.environ.get("SLURM_CONF")
        os.environ["SLURM_CONF"] = str(self.config)
        self.start_controller()
        for name in NODES:
            self.start_node(name)
        end = time.monotonic() + WAIT
        while time.monotonic() < end:
            told = subprocess.run(
                ["sinfo", "-h", "-N", "-o", "%T"],
                stdout=subprocess.PIPE,
                stderr=subprocess.DEVNULL,
                universal_newlines=True,
            )
            if told.stdout.split() == ["idle"] * len(NODES):
                return self
            time.sleep(0.5)
        raise AssertionError(
            f"the cluster is not ready: {told.stdout} {(self.folder / 'slurmctld.log').read_text()[-2000:]}"
        )

    def start_node(self, name: str) -> None:
        """Starts the daemon of a node."""
        self._run(name, ["slurmd", "-D", "-N", name])

    def _run(self, name: str, words: List[str]) -> None:
        program = shutil.which(words[0]) or f"/usr/sbin/{words[0]}"
        with open(self.folder / f"{name}.out", "ab") as out:
            self.started[name] = subprocess.Popen(
                [program, *words[1:]], stdin=subprocess.DEVNULL, stdout=out, stderr=out, start_new_session=True
            )

    def kill(self, name: str) -> None:
        """Kills the controller's or a node's daemon, and what runs on the node, as when its machine goes away."""
        process = self.started.pop(name)
        process.kill()
        process.wait()
        for step in self._steps(name):
            for place in Path("/proc").glob("[0-9]*/stat"):
                try:
                    if int(place.read_text().rpartition(")")[2].split()[3]) == step:
                        os.kill(int(place.parent.name), signal.SIGKILL)
                except (OSError, IndexError):
                    pass

    def end(self, name: str) -> None:
        """Ends a daemon as an administrator does: the controller notes first which jobs run."""
        process = self.started.pop(name)
        process.terminate()
        process.wait(WAIT)

    def _steps(self, name: str) -> Set[int]:
        """The sessions of the steps that run on a node: their daemon has the node's log open."""
        found = set()
        for place in Path("/proc").glob("[0-9]*"):
            try:
                if (place / "cmdline").read_bytes().startswith(b"slurmstepd") and any(
                    os.readlink(file) == str(self.folder / f"slurmd.{name}.log") for file in (place / "fd").iterdir()
                ):
                    found.add(os.getsid(int(place.name)))
            except OSError:
                pass
        return found

    def start_controller(self) -> None:
        """Starts the controller, which knows what it knew before."""
        self._run("slurmctld", ["slurmctld", "-D"])

    def stop(self) -> None:
        """Ends the daemons."""
        own = {**os.environ, "SLURM_CONF": str(self.config)}
        for words in (["--state=RUNNING"], []):
            subprocess.run(
                ["scancel", *words, "-u", "root"], env=own, stdout=subprocess.DEVNULL, stderr=subprocess.DEVNULL
            )
        time.sleep(1)
        for name in list(self.started):
            process = self.started.pop(name)
            process.terminate()
            try:
                process.wait(20)
            except subprocess.TimeoutExpired:
                process.kill()
                process.wait()
        if self.former is None:
            os.environ.pop("SLURM_CONF", None)
        else:
            os.environ["SLURM_CONF"] = self.former
