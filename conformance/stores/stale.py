"""A process of mixed requests whose reads are stale, as those of an etcd member that lags behind: stale.py ADDRESS FOLDER. One request is closed
once all is settled, and one too early. The judge has to find the second, and not the first. FOLDER/told says what came of it."""
import faulthandler
import random
import sys
import time
from pathlib import Path

from jobs import tables
from mixed import Client
from mixed_functions import functions
from mixed_judge import KEPT, MixedJudge

from cf.service import Flow
from cf.store import DurableService, connect


class Behind(Client):
    """Reads nothing more once it has attached a stage. Then the request is closed, at once or after another service has settled the stage."""

    def __init__(self, address, folder):
        super().__init__(address, folder, 1)
        for service in self.services:
            service.shutdown()
        self.address, self.settles = address, True
        self.services = [DurableService(connect(address), 0, functions=functions)]
        self.other = DurableService(connect(address), 1, functions=functions, takes_all=True)

    def attached(self, request, rng):
        stage = request.promise()
        request._service.store.read = lambda name, at=0, number=0: []
        if self.settles:
            self.means(self.other.open(request.name), stage.number, lambda it, token: it.complete({"token": token}))
        else:
            tables(self.address, f"update cf_request set closed = 1 where name = '{request.name}'")
        self.until_closed(request.name)
        return stage

    def until_closed(self, name):
        until = time.monotonic() + 30
        while name in self.other.store.ends():
            assert time.monotonic() < until, f"{name} stays open"
            time.sleep(0.01)

    def judged(self, name, settles):
        """Attaches to a request that is closed."""
        flow, token, self.settles = Flow(name), self.token(), settles
        self.note("means", name, None, flow.promise().number, token)
        vars(self.services[0].store).pop("read", None)
        request = self.services[0].start(flow, {"token": token}, name=name)
        self.until_closed(name)
        self.attach(request, random.Random(1))


def main(address, folder):
    connect(address).close()
    for statement in ("create table effect (name text)", *KEPT["sqlite"]):
        tables(address, statement)
    client = Behind(address, folder)
    for name, settles in (("in time", True), ("too early", False)):
        client.judged(name, settles)
    for service in (*client.services, client.other):
        service.shutdown()
    faulthandler.cancel_dump_traceback_later()
    found = [it for it in MixedJudge(address, folder).judge()[1] if "was closed" in it]
    Path(folder, "told").write_text(f"of two requests the judge finds {found}")
    return 0 if len(found) == 1 and "too early" in found[0] else 1


if __name__ == "__main__":
    sys.exit(main(*sys.argv[1:]))
