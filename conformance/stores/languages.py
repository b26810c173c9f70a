"""A process that works on requests with others, in Python, Rust and Java, until it is stopped or killed: languages.py ADDRESS FOLDER SEED.

It does what mixed.py does, but for what Rust and Java don't have: its functions aren't transactional, don't compose and take no arguments by name,
and nothing is dropped. A process in Python begins the flows. With SPOILT it is a worker that the judge has to find, as the head of
clients/rust/cf-store/examples/faults.rs says.
"""
import faulthandler
import sys
import threading

import languages_functions
import mixed
from languages_functions import CALLS, ONE, flow_of, functions
from process import spoils


class Client(mixed.Client):
    label, functions = "python", functions

    def __init__(self, address, folder, seed):
        languages_functions.note = self.note
        super().__init__(address, folder, seed)

    def note(self, *said):
        if said[0] == "did" and spoils("puts"):
            said = (*said[:5], said[5] + 1000, *said[6:])
        super().note(*said)

    def token(self):
        return f"python ü {super().token()}"

    @staticmethod
    def is_flow(number):
        return number % 3 != 0

    def flow(self, number, mark):
        return flow_of(number, mark)

    def means(self, request, stage, call, token=None):
        def told(it, token):
            answer = call(it, token)
            return answer if answer is None else answer != spoils("answers")

        super().means(request, stage, told, token)

    def shown(self, said, told):
        super().shown(said, ["value", "another"] if told[0] == "value" and spoils("shows") else told)

    def attached(self, request, rng):
        many, call = len(request._followed.forms), CALLS[rng.choice(ONE)]
        one, other = (request[rng.randrange(many)] if many else None for _ in range(2))
        pick = rng.random()
        if one is None or pick < 0.2:
            made = request.supply(call, {"token": self.token()})
        elif pick < 0.3:
            return request.promise("alarm" if rng.random() < 0.3 else "promise")
        elif pick < 0.4:
            return getattr(request, rng.choice(["all_of", "first_of", "gather"]))(one, other)
        else:
            made = languages_functions.behind(rng, one, other, call)
        return made.again(rng.choice([0, 0, 1, 2, 4]))

    def drop(self, number, request, at):
        """Nothing is dropped: Rust and Java can't."""


if __name__ == "__main__":
    Client(sys.argv[1], sys.argv[2], int(sys.argv[3])).run()
    faulthandler.cancel_dump_traceback_later()
    assert threading.active_count() < 100
