"""Servers that a run starts for itself, in its own folder and on 127.0.0.1 alone, and what breaks them."""
import contextlib
import http.client
import json
import os
import random
import shutil
import signal
import socket
import subprocess
import sys
import time
from pathlib import Path

POSTGRES = Path("/usr/lib/postgresql/15/bin")


def free_ports(many):
    """Ports that nobody listens at. The kernel gives none below 32,768 to who connects, so they stay free."""
    sockets = []
    while len(sockets) < many:
        with contextlib.suppress(OSError):
            sockets.append(socket.create_server(("127.0.0.1", random.randrange(10_000, 32_768))))
    ports = [it.getsockname()[1] for it in sockets]
    for it in sockets:
        it.close()
    return ports


def missing(engine):
    """What isn't installed of an engine, or nothing."""
    if engine == "postgres":
        if not (POSTGRES / "initdb").exists():
            return "no postgresql-15"
        return "" if subprocess.run([sys.executable, "-c", "import psycopg2"], stderr=subprocess.DEVNULL).returncode == 0 else "no python3-psycopg2"
    if engine in ("parted", "space") and (os.getuid() or not all(shutil.which(it) for it in ("unshare", "ip", "nft"))):
        return "it takes root, unshare, ip and nft"
    return "no etcd-server" if engine in ("etcd", "parted") and not shutil.which("etcd") else ""


class Postgres:
    """A PostgreSQL 15 server. It doesn't run as root: `postgres` owns its folder then."""

    def __init__(self, folder, options="", anew=True):
        self.folder, (self.port,) = f"{folder}/pg", free_ports(1)
        self.as_user = ["runuser", "-u", "postgres", "--"] if os.getuid() == 0 else []
        if anew:
            self._make()
        with open(f"{self.folder}/postgresql.conf", "a") as conf:
            conf.write(
                f"\nlisten_addresses='127.0.0.1'\nport={self.port}\nunix_socket_directories=''\nmax_connections=300\n"
                f"shared_buffers=128MB\n{options}\n"
            )
        self._do("pg_ctl", "-D", self.folder, "-w", "-t", "300", "-l", f"{self.folder}/log", "start")
        self.address = self.by(self.port)

    def _make(self):
        shutil.rmtree(self.folder, ignore_errors=True)
        os.makedirs(self.folder)
        if self.as_user:
            shutil.chown(self.folder, "postgres")
        self._do("initdb", "-D", self.folder, "-A", "trust", "-U", "postgres")

    @staticmethod
    def by(port):
        return f"postgresql://postgres@127.0.0.1:{port}/postgres"

    def _do(self, name, *words):
        subprocess.run([*self.as_user, POSTGRES / name, *words], check=True, stdout=subprocess.DEVNULL, stderr=subprocess.DEVNULL, cwd="/")

    def breaks(self):
        """The server and all its processes die at once, as by a crash; it recovers by its log."""
        self._do("pg_ctl", "-D", self.folder, "-m", "immediate", "-w", "-t", "300", "-l", f"{self.folder}/log", "restart")
        return "restarted at once"

    def proxied(self, chance):
        proxy = Proxy(f"127.0.0.1:{self.port}", chance)
        return [proxy], self.by(proxy.port)

    def stop(self):
        self._do("pg_ctl", "-D", self.folder, "-m", "fast", "-w", "-t", "300", "stop")


class Etcd:
    """A cluster of etcd on this machine. With `spaces` each member has a network of its own, so that one direction between two can be cut;
    that takes a process in a network namespace of its own, as `in_space` makes it."""

    def __init__(self, folder, nodes=3, spaces=False, options=(), anew=True):
        ports = free_ports(2 * nodes)
        self.folder, self.ports, self.peers, self.spaces, self.options = folder, ports[:nodes], ports[nodes:], spaces, options
        self.hosts = [f"10.77.0.{k + 1}" if spaces else "127.0.0.1" for k in range(nodes)]
        if spaces:
            self._make_spaces(nodes)
        self.cluster = ",".join(f"n{k}=http://{host}:{it}" for k, (host, it) in enumerate(zip(self.hosts, self.peers)))
        for k in range(nodes if anew else 0):
            shutil.rmtree(f"{folder}/etcd{k}", ignore_errors=True)
        self.nodes, self._turn = [self._start(k) for k in range(nodes)], 0
        self.address = "etcd://" + ",".join(f"{host}:{it}" for host, it in zip(self.hosts, self.ports))
        if self.leader(60) is None:
            self.stop()
            raise RuntimeError("etcd has no leader")

    @staticmethod
    def _make_spaces(nodes):
        by_ip("link", "add", "cfbr", "type", "bridge")
        by_ip("addr", "add", "10.77.0.254/24", "dev", "cfbr")
        by_ip("link", "set", "cfbr", "up")
        for k in range(nodes):
            by_ip("netns", "add", f"cf{k}")
            by_ip("link", "add", f"cfo{k}", "type", "veth", "peer", "name", "cfi", "netns", f"cf{k}")
            by_ip("link", "set", f"cfo{k}", "master", "cfbr", "up")
            for words in (("addr", "add", f"10.77.0.{k + 1}/24", "dev", "cfi"), ("link", "set", "cfi", "up"), ("link", "set", "lo", "up")):
                by_ip("-n", f"cf{k}", *words)
            for words in ("add table ip cf", "add chain ip cf in { type filter hook input priority 0; }"):
                subprocess.run(["ip", "netns", "exec", f"cf{k}", "nft", words], check=True)

    def cut(self, source, to):
        """Lets nothing through from one member to another; the other way stays."""
        rule = f"add rule ip cf in ip saddr {self.hosts[source]} drop"
        subprocess.run(["ip", "netns", "exec", f"cf{to}", "nft", rule], check=True)

    def mend(self):
        """Lets all through again."""
        for k in range(len(self.nodes)):
            subprocess.run(["ip", "netns", "exec", f"cf{k}", "nft", "flush chain ip cf in"], check=True)

    def _start(self, k):
        client, peer = f"http://{self.hosts[k]}:{self.ports[k]}", f"http://{self.hosts[k]}:{self.peers[k]}"
        head = ["ip", "netns", "exec", f"cf{k}"] if self.spaces else []
        with open(f"{self.folder}/etcd{k}.log", "a") as log:
            return subprocess.Popen(
                [
                    *head,
                    "etcd",
                    "--name",
                    f"n{k}",
                    "--data-dir",
                    f"{self.folder}/etcd{k}",
                    "--listen-client-urls",
                    client,
                    "--advertise-client-urls",
                    client,
                    "--listen-peer-urls",
                    peer,
                    "--initial-advertise-peer-urls",
                    peer,
                    "--initial-cluster",
                    self.cluster,
                    "--initial-cluster-state",
                    "new",
                    "--snapshot-count",
                    "100000",
                    *self.options,
                ],
                stdout=log,
                stderr=log,
            )

    def _status(self, k):
        connection = http.client.HTTPConnection(self.hosts[k], self.ports[k], timeout=1)
        try:
            connection.request("POST", "/v3/maintenance/status", "{}")
            return json.loads(connection.getresponse().read())
        except (OSError, http.client.HTTPException, ValueError):
            return None
        finally:
            connection.close()

    def leader(self, seconds=10):
        until = time.monotonic() + seconds
        while time.monotonic() < until:
            for k in range(len(self.nodes)):
                told = self._status(k)
                if told and told.get("leader") and told["leader"] == told["header"]["member_id"]:
                    return k
            time.sleep(0.1)
        return None

    def breaks(self):
        k = self.leader()
        if k is None:
            return "no leader"
        self._turn += 1
        others = [j for j in range(len(self.nodes)) if j != k]
        if self.spaces:
            return self._part(k, others)
        if self._turn % 4 == 0:
            for node in self.nodes:
                node.kill()
            for node in self.nodes:
                node.wait()
            self.nodes = [self._start(j) for j in range(len(self.nodes))]
            return "all nodes killed"
        if self._turn % 4 == 3:
            # The others choose a leader; then the old one goes on, and still thinks that it is one.
            self.nodes[k].send_signal(signal.SIGSTOP)
            time.sleep(2.5)
            self.nodes[k].send_signal(signal.SIGCONT)
            return "leader stopped for 2.5 s"
        self.nodes[k].kill()
        self.nodes[k].wait()
        time.sleep(1.5)
        self.nodes[k] = self._start(k)
        return "leader killed"

    def _part(self, k, others):
        """Cuts one direction for 3 s."""
        turn = self._turn % 4
        pairs = {0: [(k, j) for j in others], 1: [(j, k) for j in others], 2: [(k, others[0])], 3: [(others[0], k)]}[turn]
        for source, to in pairs:
            self.cut(source, to)
        time.sleep(3)
        self.mend()
        return (
            "the others don't hear the leader",
            "the leader doesn't hear the others",
            "one doesn't hear the leader",
            "the leader doesn't hear one",
        )[turn]

    def proxied(self, chance):
        proxies = [Proxy(f"{host}:{port}", chance) for host, port in zip(self.hosts, self.ports)]
        return proxies, "etcd://" + ",".join(f"127.0.0.1:{it.port}" for it in proxies)

    def stop(self):
        for node in self.nodes:
            node.kill()
            node.wait()


class Proxy:
    """Passes all on to a server, and now and then cuts a connection in place of the server's reply."""

    def __init__(self, to, chance):
        (self.port,) = free_ports(1)
        program = Path(__file__).with_name("proxy.py")
        self.process = subprocess.Popen([sys.executable, program, str(self.port), to, str(chance)], stdout=subprocess.PIPE, universal_newlines=True)
        self.process.stdout.readline()

    def stop(self):
        """How many it has cut."""
        self.process.send_signal(signal.SIGTERM)
        return int(self.process.communicate(timeout=10)[0])


def by_ip(*words):
    subprocess.run(["ip", *words], check=True)


def in_space(words):
    """Runs a command in a network and mounts of its own, which end with it."""
    head = 'mount --make-rprivate / && mount -t tmpfs tmpfs /run && ip link set lo up && exec "$@"'
    return subprocess.run(["unshare", "--net", "--mount", "sh", "-c", head, "sh", *words]).returncode


def start(engine, folder, lax=False):
    """A server of an engine, or None where it is no server."""
    if engine == "parted":
        return Etcd(folder, spaces=True)
    if engine == "postgres":
        return Postgres(folder, "synchronous_commit=off\nwal_writer_delay=10000" if lax else "")
    return Etcd(folder) if engine == "etcd" else None
