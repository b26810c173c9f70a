"""An order whose bank is away at first: the bank is asked again, after a pause in which no thread waits.

    python3 retry.py
"""
import tempfile

from cf.store import DurableService, connect

service = DurableService(connect(f"sqlite:///{tempfile.mkdtemp()}/orders.db"))
answers = [None, None, 4900]  # the bank's


def bank(order):
    cents = answers.pop(0)
    if cents is None:
        raise ConnectionError("the bank is away")
    return {"number": order["number"], "cents": cents}


@service.function("charge")
def charge(request, order):
    """For `compose`. It gives what the bank says, or a try that comes later, three tries in all."""
    try:
        paid = bank(order)
    except ConnectionError as error:
        print(f"try {order['try']}: {error}")
        if order["try"] == 3:
            raise
        pause = request.promise("pause").complete_on_timeout({**order, "try": order["try"] + 1}, 0.2)
        return pause.compose(charge).again(2)
    answer = request.promise("answer")
    answer.complete(paid)
    return answer


request = service.request("order 17")
order = request.promise("order")
paid = order.compose(charge).again(2)  # if its process dies
order.complete({"number": 17, "try": 1})
print(paid.result())
service.shutdown()
