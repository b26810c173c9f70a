"""A service that adds the spans of each request to a file, once the request is over."""
import json
import tempfile

from cf.service import Service, SpanFile


def load(number):
    return {"number": number, "cents": 4900}


def charge(order):
    raise PermissionError("card declined")


with tempfile.NamedTemporaryFile("r") as file:
    with Service(on_end=SpanFile(file.name, "shop")) as service:
        with service.request("order 17") as request:
            request.supply(load, 17).then(charge)
    for line in file:
        for span in json.loads(line)["resourceSpans"][0]["scopeSpans"][0]["spans"]:
            print(span["name"], span["status"])
