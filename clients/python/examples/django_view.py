"""A view of Django over one service for the process, with threads. Here the whole site is this file.

    python3 django_view.py 8000
"""
import sys
from wsgiref.simple_server import make_server

from django.conf import settings
from django.core.wsgi import get_wsgi_application
from django.http import HttpResponse, JsonResponse
from django.urls import path

from cf.service import Meter, Service

settings.configure(ROOT_URLCONF=__name__, ALLOWED_HOSTS=["127.0.0.1"])
meter = Meter()
service = Service(max_workers=16, on_end=meter)


def load(number):
    return {"number": number, "item": "lamp"}


def quote(number):
    if number != 17:
        raise LookupError(f"no price for order {number}")
    return 4900


def order(call, number):
    with service.request(f"order {number}") as request:
        cents = request.supply(quote, number)
        answer = request.supply(load, number).combine(cents, lambda order, cents: {**order, "cents": cents})
        try:
            return JsonResponse(answer.or_timeout(2).result())
        except LookupError as error:
            return JsonResponse({"error": str(error)}, status=404)


def metrics(call):
    return HttpResponse(meter.text(service), content_type=meter.CONTENT_TYPE)


urlpatterns = [path("order/<int:number>", order), path("metrics", metrics)]
application = get_wsgi_application()

if __name__ == "__main__":
    with make_server("127.0.0.1", int(sys.argv[1]), application) as server:
        print("http://%s:%d" % server.server_address, flush=True)
        server.serve_forever()
