"""An ssh server and a Slurm of one node on loopback, for the checks of las-batch. Each ends what it started."""
from __future__ import annotations

import os
import secrets
import shutil
import signal
import socket
import stat
import subprocess
import time
from collections.abc import Callable
from pathlib import Path
from typing import Any

import needs


def free_port() -> int:
    with socket.socket() as it:
        it.bind(("127.0.0.1", 0))
        return int(it.getsockname()[1])


def wait_until(holds: Callable[[], bool], seconds: float) -> None:
    end = time.time() + seconds
    while not holds():
        if time.time() > end:
            raise TimeoutError("a server did not start")
        time.sleep(0.1)


def answers(port: int) -> bool:
    with socket.socket() as it:
        return it.connect_ex(("127.0.0.1", port)) == 0


class Servers:
    """Processes that end with the block that they are started in."""

    def __init__(self, folder: Path) -> None:
        folder.mkdir(parents=True)
        folder.chmod(0o755)
        self.folder = folder
        self.processes: list[subprocess.Popen[bytes]] = []
        self.environment: dict[str, str] = {}

    def path(self, name: str) -> str:
        return str(self.folder / name)

    def write(self, name: str, lines: list[str]) -> None:
        self.folder.joinpath(name).write_text("\n".join([*lines, ""]))

    def start(self, *words: str, **options: Any) -> None:
        with open(self.path(os.path.basename(words[0]) + ".log"), "wb") as log:
            self.processes.append(subprocess.Popen(words, stdin=subprocess.DEVNULL, stdout=log, stderr=log, **options))

    def __exit__(self, *_: object) -> None:
        for process in reversed(self.processes):
            process.send_signal(signal.SIGTERM)
            try:
                process.wait(10)
            except subprocess.TimeoutExpired:
                process.kill()
                process.wait()


# OpenSSH's first choice takes a fifth of a second of a processor for each connection, and this one a thirtieth.
KEY_EXCHANGE = "curve25519-sha256"


class SshServer(Servers):
    """An ssh server with keys of its own, on a free port. `environment` has GNU parallel go there."""

    def __enter__(self) -> SshServer:
        for command, package in (("ssh", "openssh-client"), ("/usr/sbin/sshd", "openssh-server"), ("rsync", "rsync")):
            needs.command(command, package)
        port, path = free_port(), self.path
        for key in ["host", "user"]:
            subprocess.run(["ssh-keygen", "-q", "-t", "ed25519", "-N", "", "-f", path(key)], check=True)
        shutil.copy(path("user.pub"), path("authorized"))
        self.home = path("home")
        os.makedirs(self.home)
        os.makedirs("/run/sshd", exist_ok=True)
        self.write("config", [
            f"Port {port}", "ListenAddress 127.0.0.1", f"HostKey {path('host')}",
            f"AuthorizedKeysFile {path('authorized')}",
            "PidFile none", "StrictModes no", "PasswordAuthentication no", "KbdInteractiveAuthentication no",
            f"KexAlgorithms {KEY_EXCHANGE}",
            f"SetEnv HOME={self.home}", "MaxStartups 100", "MaxSessions 100", "PermitRootLogin yes"])
        self.write("ssh", ["#!/bin/sh", f"exec /usr/bin/ssh -p {port} -i '{path('user')}' "
                           f"-o UserKnownHostsFile='{path('known')}' -o StrictHostKeyChecking=accept-new "
                           '-o IdentitiesOnly=yes -o LogLevel=ERROR "$@"'])
        os.chmod(path("ssh"), stat.S_IRWXU)
        self.start("/usr/sbin/sshd", "-D", "-e", "-f", path("config"))
        wait_until(lambda: answers(port), 20)
        self.environment = {"PARALLEL_SSH": path("ssh")}
        return self


class Slurm(Servers):
    """A Slurm of one node, this machine, with munge and state of its own."""

    def __enter__(self) -> Slurm:
        for command, package in (("sbatch", "slurm-client"), ("slurmd", "slurmd"), ("slurmctld", "slurmctld"),
                                 ("munged", "munge")):
            needs.command(command, package)
        path = self.path
        host = socket.gethostname().split(".")[0]
        for name in ["munge", "state", "spool"]:
            os.makedirs(path(name), mode=0o700)
        Path(path("munge/key")).write_bytes(secrets.token_bytes(1024))
        os.chmod(path("munge/key"), 0o400)
        self.start("munged", "-F", "-f", f"--key-file={path('munge/key')}", f"--socket={path('munge/socket')}",
                   f"--pid-file={path('munge/pid')}", f"--log-file={path('munge/log')}",
                   f"--seed-file={path('munge/seed')}")
        wait_until(lambda: os.path.exists(path("munge/socket")), 20)
        self.write("slurm.conf", [
            "ClusterName=check", f"SlurmctldHost={host}(127.0.0.1)", "SlurmUser=root", "AuthType=auth/munge",
            f"AuthInfo=socket={path('munge/socket')}", "CredType=cred/munge", f"SlurmctldPort={free_port()}",
            f"SlurmdPort={free_port()}", f"StateSaveLocation={path('state')}", f"SlurmdSpoolDir={path('spool')}",
            f"SlurmctldPidFile={path('slurmctld.pid')}", f"SlurmdPidFile={path('slurmd.pid')}",
            "ProctrackType=proctrack/pgid", "TaskPlugin=task/none", "SelectType=select/cons_tres",
            "SelectTypeParameters=CR_CPU", "MpiDefault=none", "ReturnToService=2",
            "SchedulerParameters=sched_interval=2",
            "JobAcctGatherType=jobacct_gather/none", "AccountingStorageType=accounting_storage/none",
            f"NodeName={host} NodeAddr=127.0.0.1 CPUs={os.cpu_count()} State=UNKNOWN",
            f"PartitionName=all Nodes={host} Default=YES MaxTime=INFINITE State=UP"])
        self.environment = {"SLURM_CONF": path("slurm.conf")}
        environment = dict(os.environ, **self.environment)
        self.start("slurmctld", "-D", "-f", path("slurm.conf"), env=environment)
        self.start("slurmd", "-D", "-f", path("slurm.conf"), "-N", host, env=environment)
        line = ["sinfo", "-h", "-o", "%t"]
        wait_until(lambda: b"idle" in subprocess.run(line, env=environment, stdout=subprocess.PIPE, check=False,
                                                     stderr=subprocess.DEVNULL).stdout, 60)
        return self
