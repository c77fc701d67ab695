"""timers-cluster   a cluster of timers on one machine

    up FOLDER [--shards 4] [--workers 2] [--engine etcd] [--apart]    starts three nodes of etcd or nats, workers and followers
                       (an engine may be `file` or a PLACE, too; by root with --apart, nodes and workers have own networks)
    demo FOLDER [--seconds 30] [--rate 60] [--faults NAME,..]    clients ask, each so often a second, and there are faults
                       (all, or those that are named; `none`: do what you like. A rate of 100000 is as much as it takes)
    fault FOLDER [NAME]    what can be done to this cluster, or does it
    status FOLDER      shards, leases, how far each follower is behind, clocks
    shards FOLDER N    from now on new timers go to N shards (timers_shard); those that were started stay where they are
    down FOLDER        ends all"""
import argparse
import collections
import concurrent.futures
import contextlib
import itertools
import json
import os
import pathlib
import random
import signal
import subprocess
import sys
import threading
import time

from judge import Load, Model
from logs import Again, Cut, Refused, open_log
from shard import Differs, Shard, keep_snapshot, said_by

HERE = pathlib.Path(__file__).resolve().parent
OWN = sys.executable, pathlib.Path(__file__).resolve()
HEADLINE = "lost", "doubled", "early", "out of order"
REFUSED, DIFFERS = 2, 9  # exit statuses of what is not started again
# Of an engine whose nodes are started here: where a node is for clients, what it is for the others, and its command.
ENGINES = {
    "etcd": ("http://{host}:23790", "n{home}=http://{host}:23791", """etcd --name=n{home} --data-dir={folder}/n{home}
        --initial-cluster={nodes} --listen-client-urls=http://{host}:23790 --advertise-client-urls=http://{host}:23790
        --listen-peer-urls=http://{host}:23791 --initial-advertise-peer-urls=http://{host}:23791
        --heartbeat-interval=200 --election-timeout=2000 --quota-backend-bytes=8589934592
        --auto-compaction-mode=revision --auto-compaction-retention=1000"""),
    "nats": ("http://{host}:23790", "nats://{host}:23791", """nats-server --config={here}/nats.conf --name=n{home}
        --store_dir={folder}/n{home} --addr={host} --port=23792 --http_port=23790
        --cluster_name=timers --cluster=nats://{host}:23791 --routes={nodes}"""),
}
# A signal to some processes, or ways from their homes to those of nodes that are cut; and for how many seconds.
FAULTS = {
    "a process is killed": ("KILL", "any", 0), "workers are killed": ("KILL", "workers", 0),
    "workers are stopped and wake up": ("STOP", "workers", 4), "all nodes are killed": ("KILL", "nodes", 2),
    "the leader is killed": ("KILL", "leader", 3), "the leader is stopped": ("STOP", "leader", 4),
    "the leader is cut off one way": ("cut", "leader", 5), "the leader is cut off both ways": ("cut both ways", "leader", 5),
    "workers are cut off from the log": ("cut", "workers", 5),
}
NETWORKS = """ip link add $TAG type bridge; ip addr add $NET.254/24 dev $TAG; ip link set $TAG up
for i in $HOMES; do
    ip netns add $TAG$i; ip link add $TAG$i type veth peer name eth0 netns $TAG$i; ip link set $TAG$i master $TAG up
    ip -n $TAG$i addr add $NET.$((i + 1))/24 dev eth0; ip -n $TAG$i link set eth0 up; ip -n $TAG$i link set lo up
done"""
NO_NETWORKS = "for i in $HOMES; do ip link del $TAG$i; ip netns del $TAG$i; done; ip link del $TAG"


def until(done, seconds=180, why="it did not come to be in time"):
    end = time.monotonic() + seconds
    while time.monotonic() < end:
        with contextlib.suppress(Again):
            if found := done():
                return found
        time.sleep(0.05)
    sys.exit(why)


class Cluster:
    """One in a folder: `config` says what it is, `pids` has the numbers of its processes, and `log` what they say."""

    def __init__(self, folder):
        self.folder = pathlib.Path(folder).resolve()

    def read(self, name="config"):
        return json.loads((self.folder / name).read_text())

    def __getitem__(self, key):
        return self.read()[key]

    def write(self, name, content):
        """Others read it meanwhile."""
        new = self.folder / f"{name}.new"
        new.write_text(json.dumps(content))
        new.replace(self.folder / name)

    def host(self, home):
        """The first three homes are those of nodes, and workers have one each."""
        return f"{self['net']}.{home + 1}"

    def inside(self, home):
        return ["ip", "netns", "exec", f"{self['tag']}{home}"] if self["apart"] else []

    def networks(self, script):
        if self["apart"]:
            given = {"TAG": self["tag"], "NET": self["net"], "HOMES": " ".join(map(str, range(3 + self["workers"])))}
            subprocess.run(["sh", "-c", script], check=True, env=os.environ | given)

    def addresses(self, shard):
        """Of a shard's workers."""
        return [f"{self.host(3 + i)}:{23800 + int(shard)}" for i in range(self["workers"])]

    def nodes(self, engine):
        """Their commands, and the place of their logs."""
        def each(text, **more):
            return [text.format(home=i, host=self.host(i), here=HERE, folder=self.folder, **more) for i in range(3)]

        at, name, command = ENGINES[engine]
        words = zip(*(each(word, nodes=",".join(each(name))) for word in command.split()))
        return [[*self.inside(i), *command] for i, command in enumerate(words)], f"{engine}:{','.join(each(at))}"

    def up(self, given):
        self.folder.mkdir(parents=True, exist_ok=True)
        net = given.net or ("10.77.0" if given.apart else "127.0.0")
        self.write("config", vars(given) | {"up": True, "net": net, "tag": "tc" + bytes(map(int, net.split("."))).hex() + "n"})
        nodes, place = [], f"file:{self.folder}/logs" if given.engine == "file" else given.engine
        if given.engine in ENGINES:
            nodes, place = self.nodes(given.engine)
        self.write("config", self.read() | {"nodes": nodes, "place": place})
        self.networks("set -e; " + NETWORKS)
        with open(self.folder / "log", "a", encoding="utf-8") as log:
            keeper = [*OWN, "keep", self.folder]
            subprocess.Popen(keeper, stdin=subprocess.DEVNULL, stdout=log, stderr=log, start_new_session=True)
        until(lambda: all(map(self.holders, range(given.shards))), 120, f"it didn't come up: {self.folder}/log says why")
        print(f"up: {place}; clients reach shard 0 at {','.join(self.addresses(0))}, and {self.folder}/pids has the processes")

    def commands(self):
        """Those of all processes, by their names."""
        found = {f"node {i}": command for i, command in enumerate(self["nodes"])}
        for shard in map(str, range(self["shards"])):
            found[f"snapshots {shard}"], at = [*OWN, "snapshots", self.folder, shard], self.addresses(shard)
            for i in range(self["workers"]):
                name, own_first = f"{shard}.{i}", ",".join([*at[i:], *at[:i]])
                options = [option.rpartition(":")[2] for option in self["options"] if option.split(":")[:-1] in ([], [name])]
                worker = HERE / "worker.py", self["place"], shard, name, own_first, self["program"]
                found[f"worker {name}"] = [*self.inside(3 + i), sys.executable, *worker, *options]
        return found

    def keep(self, _):
        """Starts what doesn't run, of shards that are added, too."""
        kept = {}
        while self["up"]:
            for name, command in self.commands().items():
                ends = [] if name.startswith("node") else [REFUSED, DIFFERS]  # a panic in Go has status 2, too
                if name not in kept or kept[name].poll() not in [None, *ends]:
                    kept[name] = subprocess.Popen(command, stdin=subprocess.DEVNULL, stdout=subprocess.DEVNULL)
            self.write("pids", {name: process.pid for name, process in kept.items()})
            time.sleep(0.3)
        for process in kept.values():
            process.kill()
            process.wait()
        (self.folder / "pids").unlink()

    def down(self, _):
        self.write("config", self.read() | {"up": False})
        until(lambda: not (self.folder / "pids").exists(), 60, f"not all ends: {self.folder}/pids has the processes")
        self.networks(NO_NETWORKS)

    def shards(self, given):
        self.write("config", self.read() | {"shards": max(self["shards"], int(given.more))})

    def holders(self, shard):
        """Of its lease, by the names of their processes."""
        return [f"worker {said[1].rpartition('-')[0]}" for said in map(said_by, self.addresses(shard)) if said and said[0]]

    def status(self, _):
        for shard in range(self["shards"]):
            log, why = open_log(self["place"], f"steps-{shard}"), f"shard {shard}: no answer from {self['place']}"
            last, = until(lambda log=log: [log.last()], 6, why)  # each node may have a turn
            print(f"shard {shard}: record {last}")
            for address in self.addresses(shard):
                works, name, record, ahead = said_by(address) or (False, "nobody", 0, 0)
                what = "holds the lease" if works else "follows"
                print(f"  {name} {what} at {address}, {max(0, last - record)} records behind; its clock is {ahead:.1f} ms ahead")

    def those(self, who):
        """Names of processes. If no node says that it leads, any may."""
        if who == "leader":
            with contextlib.suppress(Again):
                return [f"node {open_log(self['place'], 'steps-0').leader()}"]
        if who == "workers":
            return [name for shard in range(self["shards"]) for name in self.holders(shard)]
        nodes = [f"node {i}" for i in range(3)]
        return nodes if who == "nodes" else [random.choice(nodes if who == "leader" else [*self.read("pids")])]

    def fault(self, given):
        """Does the one that is named, or says which can be done here."""
        if not given.more:
            return print(*self.faults(), sep="\n")
        what, who, seconds = FAULTS[given.more]
        does, do, undo = (self.cuts, "add", "del") if what.startswith("cut") else (self.signals, what, "CONT")
        names = self.those(who)
        does(names, do, what)
        time.sleep(seconds)
        if what != "KILL":
            does(names, undo, what)

    def signals(self, names, what, _):
        for name in names:
            with contextlib.suppress(ProcessLookupError):  # it ended meanwhile
                os.kill(self.read("pids")[name], getattr(signal, f"SIG{what}"))

    def cuts(self, names, verb, what):
        """Ways from the homes of these to those of nodes."""
        homes = {int(name[-1]) + 3 * name.startswith("worker") for name in names}
        ways = [(here, there) for here in homes for there in range(3) if here != there]
        for here, there in ways + [way[::-1] for way in ways if what == "cut both ways"]:
            command = ["ip", "-n", f"{self['tag']}{here}", "route", verb, "blackhole", f"{self.host(there)}/32"]
            subprocess.run(command, check=True)

    def faults(self):
        """What can be done to this cluster."""
        has_nodes, can_cut = bool(self["nodes"]), bool(self["nodes"] and self["apart"])
        return [name for name, (what, who, _) in FAULTS.items()
                if (can_cut or not what.startswith("cut")) and (has_nodes or who in ("any", "workers"))]

    def harm(self, given):
        """Faults at random, for so many seconds. How many there were."""
        end, happened = time.monotonic() + given.seconds, 0
        while time.monotonic() < end:
            time.sleep(random.uniform(0.5, 2))
            if given.faults != "none":
                given.more = random.choice(given.faults.split(",") if given.faults != "all" else [*self.faults()])
                self.fault(given)
                print(given.more, flush=True)
                happened += 1
        time.sleep(1)
        return happened

    def demo(self, given):
        begun, ended = time.monotonic(), threading.Event()
        models = [Model(self["place"], str(shard)) for shard in range(self["shards"])]
        opens = [[(",".join(self.addresses(model.shard)), model.shard, client) for client in (0, 1)] for model in models]
        loads = [[Load(each, ended, given) for each in of_shard] for of_shard in opens]
        with concurrent.futures.ThreadPoolExecutor(len(models)) as pool:
            judged = pool.map(Model.judged, models, loads)
            try:
                happened = self.harm(given)
            finally:
                ended.set()  # the clients and the judges end then
            seconds = time.monotonic() - begun
            wrong = sum(judged, collections.Counter())
        others = ", ".join(f"{count} {what}" for what, count in wrong.items() if what not in HEADLINE)
        answers, expired = sum(load.answers for load in itertools.chain(*loads)), sum(model.expired for model in models)
        print(f"{others or 'nothing else wrong'}; {answers} requests answered, {answers / seconds:.0f} a second, {expired} timers"
              f" expired, {happened} faults")
        print(", ".join(f"{wrong[what]} {what}" for what in HEADLINE))
        return bool(wrong)

    def snapshots(self, given):
        """Two followers of a shard, over different wheels. Every so many records each says its state. If both say the same, that
        is a snapshot, and the log is cut up to the one before. Who was away for so long that it meets the cut begins anew."""
        every = self["every"]
        one, other = (Shard(self["place"], given.more, self["program"], scheme) for scheme in ("hier", "hashed"))
        while True:
            if not (record := one.log.wait(one.last + 1, 1)):
                continue
            one.follow(record), other.follow(record)
            if one.last % every == 0 and (lines := one.state()):
                if other.state() != lines:
                    raise Differs(f"snapshots after record {one.last}")
                with contextlib.suppress(Again):  # the next one will do
                    keep_snapshot(one, lines, one.last - every)


def main():
    parser = argparse.ArgumentParser(usage=__doc__)
    parser.add_argument("verb", choices=["up", "demo", "fault", "status", "shards", "down", "keep", "snapshots"])
    parser.add_argument("folder")
    parser.add_argument("more", nargs="?")
    for name, default in {"shards": 4, "workers": 2, "net": "", "seconds": 30, "rate": 60, "patience": 180, "every": 1000,
                          "engine": "etcd", "faults": "all", "program": f"{HERE}/../timers"}.items():
        parser.add_argument(f"--{name}", type=type(default), default=default)
    parser.add_argument("--apart", action="store_true")
    parser.add_argument("--options", nargs="*", default=[])  # of workers, as OPTION=NUMBER, or NAME:OPTION=NUMBER for one
    given = parser.parse_args()
    try:
        return getattr(Cluster(given.folder), given.verb)(given)
    except (Refused, Cut, Again, Differs) as why:
        print(f"{given.verb}: {type(why).__name__} {why}", file=sys.stderr)
        return {Refused: REFUSED, Differs: DIFFERS}.get(type(why), 1)


if __name__ == "__main__":
    sys.exit(main())
