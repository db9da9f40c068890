"""A cluster of one node on the loopback address, of real daemons in a folder: munged, slurmctld and slurmd.

Every process that is started here, and what these start in turn, is below this process (a subreaper), so that `stop` finds
and ends them all; the daemons end with this process where it is killed.
"""
import ctypes
import os
import pwd
import shutil
import signal
import socket
import subprocess
import time

WANTED = ("snakemake", "sbatch", "slurmctld", "slurmd", "munged")
SYSTEM = "/usr/sbin"
PR_SET_PDEATHSIG, PR_SET_CHILD_SUBREAPER, CLONE_NEWUTS = 1, 36, 0x04000000
LIBC = ctypes.CDLL(None, use_errno=True)
PROCESSORS, MEBIBYTES = 4, 16000  # as the node says of itself, whatever the machine has
REQUEUED_AFTER = 20  # seconds until a job that was put back may start; also how long the letter of a start is valid

CONFIGURATION = """\
ClusterName=spread
SlurmctldHost={host}(127.0.0.1)
SlurmctldPort={ports[0]}
SlurmdPort={ports[1]}
CommunicationParameters=NoCtldInAddrAny,NoInAddrAny
AuthType=auth/munge
CredType=cred/munge
AuthInfo=socket={folder}/munge.socket,cred_expire={requeued_after}
SlurmUser={user}
SlurmdUser={user}
StateSaveLocation={folder}/state
SlurmdSpoolDir={folder}/spool
SlurmctldPidFile={folder}/slurmctld.pid
SlurmdPidFile={folder}/slurmd.pid
SlurmctldLogFile={folder}/slurmctld.log
SlurmdLogFile={folder}/slurmd.log
MailProg=/bin/true
MpiDefault=none
ProctrackType=proctrack/linuxproc
TaskPlugin=task/none
JobAcctGatherType=jobacct_gather/none
AccountingStorageType=accounting_storage/none
JobCompType=jobcomp/none
SelectType=select/cons_tres
SelectTypeParameters=CR_CPU_Memory
SlurmdParameters=config_overrides
ReturnToService=2
JobRequeue=1
KillWait=5
MessageTimeout=20
SlurmdTimeout=15
SchedulerParameters=sched_interval=2,bf_interval=2
NodeName={host} NodeAddr=127.0.0.1 CPUs={processors} RealMemory={mebibytes} State=UNKNOWN
PartitionName=all Nodes=ALL Default=YES MaxTime=INFINITE State=UP
"""


class Trouble(Exception):
    """What did not happen."""


def missing():
    """The programs that are wanted and not there."""
    return [name for name in WANTED if not shutil.which(name, path=search_path())]


def user():
    """Who runs this; the daemons and jobs run as the same."""
    try:
        return pwd.getpwuid(os.getuid()).pw_name
    except KeyError:
        return str(os.getuid())


def search_path():
    """Where programs are looked for; daemons stand where not every user looks."""
    return f"{os.environ.get('PATH', '/usr/bin:/bin')}{os.pathsep}{SYSTEM}"


def adopt():
    """Makes this process the parent of those below it whose own parent has ended."""
    if LIBC.prctl(PR_SET_CHILD_SUBREAPER, 1, 0, 0, 0):
        raise Trouble("this system has no subreapers (Linux has, from 3.4 on)")


def machine_name():
    """The name of the machine for this process and those below it, `localhost` where it may be given one of its own: the
    daemons of Slurm listen where this name leads, which must be 127.0.0.1."""
    if not LIBC.unshare(CLONE_NEWUTS):
        LIBC.sethostname(b"localhost", len(b"localhost"))
    name = socket.gethostname().partition(".")[0]
    with open("/etc/hosts", encoding="utf-8") as hosts:
        if not any(words[:1] == ["127.0.0.1"] and name in words for words in map(str.split, hosts)):
            raise Trouble(f"{name} is not 127.0.0.1 in /etc/hosts, and only root can give the machine another name here")
    return name


def ends_with_parent():
    """Called in a new process: it is killed where the one that started it ends."""
    LIBC.prctl(PR_SET_PDEATHSIG, signal.SIGKILL, 0, 0, 0)


def below(top):
    """The processes below one, by /proc."""
    children = {}
    for entry in filter(str.isdecimal, os.listdir("/proc")):
        try:
            with open(f"/proc/{entry}/stat", encoding="utf-8", errors="replace") as told:
                state, parent = told.read().rpartition(")")[2].split()[:2]
        except OSError:
            continue
        if state != "Z":
            children.setdefault(int(parent), []).append(int(entry))
    found, seen = [], [top]
    while seen:
        new = children.get(seen.pop(), [])
        found += new
        seen += new
    return found


def send(number, processes):
    """A signal to each of some processes."""
    for process in processes:
        try:
            os.kill(process, number)
        except ProcessLookupError:
            pass


def until(holds, seconds, what):
    """Waits until something holds, and gives it."""
    end = time.monotonic() + seconds
    while not (found := holds()):
        if time.monotonic() > end:
            raise Trouble(f"after {seconds} seconds: {what}")
        time.sleep(0.2)
    return found


def free_ports(count):
    """Ports of the loopback address that nobody listens on now."""
    sockets = [socket.socket() for _ in range(count)]
    for one in sockets:
        one.bind(("127.0.0.1", 0))
    ports = [one.getsockname()[1] for one in sockets]
    for one in sockets:
        one.close()
    return ports


class Cluster:
    """The daemons in a folder."""

    def __init__(self, folder, around):
        self.folder, self.daemons, self.host = folder, {}, machine_name()
        self.around = {**around, "PATH": search_path(), "SLURM_CONF": str(folder / "slurm.conf")}

    def start(self):
        """Starts the daemons; where a port was taken meanwhile, once more with others."""
        self.daemon("munged", *self.munge_words())
        until((self.folder / "munge.socket").exists, 60, "munged has no socket")
        for last in (False, False, True):
            self.configure()
            try:
                self.daemon("slurmctld", "-D", "-c")
                until(lambda: self.answers("slurmctld", "scontrol", "ping"), 60, "slurmctld does not answer")
                self.start_node()
                return
            except Trouble:
                if last:
                    raise
                for name in ("slurmd", "slurmctld"):
                    self.end(name)

    def munge_words(self):
        """The words of munged; its key is made here."""
        key = self.folder / "munge.key"
        key.touch(0o600)
        key.write_bytes(os.urandom(256))
        files = [f"--{word}-file={self.folder}/munge.{word}" for word in ("key", "pid", "log", "seed")]
        return ["--foreground", "--force", "--origin=127.0.0.1", f"--socket={self.folder}/munge.socket", *files]

    def configure(self):
        """Writes slurm.conf."""
        for name in ("state", "spool"):
            shutil.rmtree(self.folder / name, ignore_errors=True)
            (self.folder / name).mkdir()
        text = CONFIGURATION.format(
            host=self.host, ports=free_ports(2), folder=self.folder, user=user(), processors=PROCESSORS,
            mebibytes=MEBIBYTES, requeued_after=REQUEUED_AFTER,
        )
        (self.folder / "slurm.conf").write_text(text)

    def daemon(self, name, *words):
        """Starts a daemon in the foreground."""
        with open(self.folder / f"{name}.out", "ab") as out:
            self.daemons[name] = subprocess.Popen(
                [name, *words], stdin=subprocess.DEVNULL, stdout=out, stderr=out, env=self.around, cwd=self.folder,
                preexec_fn=ends_with_parent,
            )

    def end(self, name):
        """Ends a daemon, if it was started."""
        daemon = self.daemons.pop(name, None)
        if daemon:
            daemon.terminate()
            try:
                daemon.wait(10)
            except subprocess.TimeoutExpired:
                daemon.kill()
                daemon.wait()

    def ask(self, *words):
        """What a command of Slurm says; nothing where it fails."""
        try:
            done = subprocess.run(
                words, stdin=subprocess.DEVNULL, capture_output=True, text=True, env=self.around, timeout=60
            )
        except subprocess.TimeoutExpired:
            return ""
        return done.stdout if done.returncode == 0 else ""

    def answers(self, name, *words):
        """Whether a command is answered; a daemon that has ended never does."""
        if self.daemons[name].poll() is not None:
            raise Trouble(f"{name} ended with status {self.daemons[name].returncode}")
        return self.ask(*words)

    # ---- jobs and the node

    def running(self, name):
        """The numbers of the running jobs whose name begins so."""
        lines = self.ask("squeue", "-h", "-t", "RUNNING", "-o", "%i %j").splitlines()
        return [line.split()[0] for line in lines if line.split()[1].startswith(name)]

    def field(self, job, name):
        """A field of a job."""
        words = self.ask("scontrol", "-o", "show", "job", job).split()
        return next((word.partition("=")[2] for word in words if word.startswith(f"{name}=")), "")

    def kill_job(self, job):
        """Kills the processes of a job, as soon as there are any."""
        def processes():
            words = (line.split() for line in self.ask("scontrol", "listpids", job).splitlines()[1:])
            return {int(word[0]) for word in words if word and word[0].isdecimal()} & set(below(os.getpid()))

        send(signal.SIGKILL, until(processes, 120, f"job {job} has no processes"))

    def node(self):
        """The state of the node; a star says that it does not answer."""
        return self.ask("sinfo", "-h", "-o", "%T").strip()

    def start_node(self):
        """Starts slurmd, and waits until its node takes jobs."""
        self.daemon("slurmd", "-D")
        up = ("idle", "mixed", "allocated", "completing")
        until(lambda: self.answers("slurmd", "sinfo", "-h", "-o", "%T").strip() in up, 120, "the node does not come up")

    def lose_node(self):
        """Kills slurmd and all that runs on its node, and waits until the node counts as down."""
        slurmd = self.daemons.pop("slurmd")
        lost = [slurmd.pid, *below(slurmd.pid)]
        for entry in below(os.getpid()):
            if name_of(entry).startswith("slurmstepd"):
                lost += [entry, *below(entry)]
        send(signal.SIGKILL, lost)
        slurmd.wait()
        until(lambda: self.node().startswith("down"), 180, "slurmctld does not miss the node")

    def stop(self):
        """Ends everything below this process."""
        for name in ("slurmd", "slurmctld", "munged"):
            self.end(name)
        end = time.monotonic() + 30
        while (left := below(os.getpid())) and time.monotonic() < end:
            send(signal.SIGKILL, left)
            time.sleep(0.1)
            reap()


def name_of(process):
    """The name that a process shows."""
    try:
        with open(f"/proc/{process}/cmdline", encoding="utf-8", errors="replace") as told:
            return told.read().replace("\0", " ").strip()
    except OSError:
        return ""


def reap():
    """Takes the statuses of processes that have ended."""
    try:
        while os.waitpid(-1, os.WNOHANG)[0]:
            pass
    except ChildProcessError:
        pass
