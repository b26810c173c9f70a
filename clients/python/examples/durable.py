"""An order whose process is killed while it packs. Run again, the program goes on where the first process stopped.

    python3 durable.py killed
    python3 durable.py
"""
import os
import signal
import sys

from cf.service import Flow
from cf.store import DurableService, connect

service = DurableService(connect("sqlite:///orders.db"), lease=1)


@service.function("charge")
def charge(order):
    print("the card is charged", flush=True)
    return {**order, "cents": 4900}


@service.function("pack")
def pack(order):
    print("packing", flush=True)
    if "killed" in sys.argv:
        os.kill(os.getpid(), signal.SIGKILL)
    return {**order, "packed": True}


flow = Flow("order")
packed = flow.promise("order").then(charge).then(pack).again()
request = service.start(flow, {"number": 17}, name="order 17")
print(request[packed].result())
service.shutdown()
