"""An order whose three workers are processes: order.py [ADDRESS]

    python3 order.py
    python3 order.py postgresql://user@host/database
    python3 order.py etcd://host:2379,host:2379,host:2379

Without an address the store is a SQLite file in a temporary folder. The worker that packs the order is killed in the
midst of it; another one notices, and packs it again, since the flow says so.
"""
import os
import subprocess
import sys
import tempfile
import time
from pathlib import Path

from cf.service import Flow
from cf.store import DurableService, Functions, connect

functions = Functions()
MARK = "packing"  # a file in which whoever packs says so


@functions.function("reserve")
def reserve(order):
    return {**order, "reserved": ["lamp"]}


@functions.function("charge")
def charge(order):
    return {"cents": 4900}


@functions.function("pack")
def pack(order, payment):
    mark = Path(os.environ["ORDER_FOLDER"], MARK)
    if not mark.exists():
        mark.write_text(str(os.getpid()))
        time.sleep(60)  # it is killed meanwhile
    return {**order, **payment, "packed": True}


def packing(folder):
    """The process that packs."""
    while not Path(folder, MARK).exists() or not Path(folder, MARK).read_text():
        time.sleep(0.01)
    return int(Path(folder, MARK).read_text())


def order_flow():
    flow = Flow("order")
    order = flow.promise("order")
    packed = order.then(reserve).combine(order.then(charge), pack).again()
    return flow, packed


def main(address, folder):
    here = str(Path(__file__).resolve().parent)
    environment = dict(os.environ, ORDER_FOLDER=folder, PYTHONPATH=os.pathsep.join([here, os.environ.get("PYTHONPATH", "")]))
    command = [sys.executable, "-m", "cf.worker", "--store", address, "--lease", "2", "order"]
    workers = [subprocess.Popen(command, env=environment) for _ in range(3)]
    service = DurableService(connect(address), 0, functions=functions, lease=2)
    flow, packed = order_flow()
    request = service.start(flow, {"number": 17}, name=f"order 17 of {os.getpid()}")
    try:
        next(worker for worker in workers if worker.pid == packing(folder)).kill()
        print("a worker is killed while it packs")
        print(request[packed].result(60))
        told = [line.strip() for line in request.history().lines() if " pack" in line and " ends: " in line]
        print(*told, sep="\n")
    finally:
        for worker in workers:
            worker.terminate()
        for worker in workers:
            worker.wait()
        service.shutdown()


if __name__ == "__main__":
    with tempfile.TemporaryDirectory() as made:
        main(sys.argv[1] if len(sys.argv) > 1 else f"sqlite:///{made}/orders.db", made)
