#!/usr/bin/env python3
"""The page of a store's requests: who is let in, what lists and requests tell, what actions do, how faults are told.

    CF_LIBRARY=/path/to/libcf.so python3 clients/python/tests/store/test_web.py [-v] [TEST ..]
"""
import base64
import contextlib
import hashlib
import html
import http.client
import json
import logging
import os
import re
import signal
import socket
import subprocess
import sys
import threading
import time
import unittest
import unittest.mock
from pathlib import Path
from urllib.parse import urlencode

from case import Case, CLIENT, EMPTY
import shared_functions as f
from cf.service import Flow
from cf.store import Broken, connect, DurableService, Functions, Memory, new_session, Put, RowView, StoreError, Unknown
from cf.store.plans import text_of
from cf.store.rows import Changes
from cf.store.web import server
from cf.store.web.reading import Readings
from cf.store.web.server import Server
from cf.store.web.wording import TEXTS

logging.getLogger("cf.requests").addHandler(logging.NullHandler())  # (it names each action)
HOSTILE = "</script><img src=x onerror=alert(1)>\"'`&\n\u202e\u2028{{said}}"


class WebCase(Case):
    """A page over a store, and a browser that has its cookie."""

    lease = 2

    def setUp(self):
        super().setUp()
        self.pages = []
        f.held.clear()

    def tearDown(self):
        f.held.set()
        for page in self.pages:
            page.shutdown()
            page.server_close()
        super().tearDown()

    def page_over(self, store, **more):
        page = Server(store, lease=self.lease, **{"who": "ops", "title": "the store", "cf_look": None, **more})
        threading.Thread(target=page.serve_forever, kwargs={"poll_interval": 0.02}, daemon=True).start()
        self.pages.append(page)
        self.page, self.port = page, page.server_address[1]
        _, headers, self.entered = self.ask("GET", f"/?token={page.door.token}", cookie=None)
        self.cookie = headers["Set-Cookie"].split(";")[0]
        return page

    def ask(self, method, path, body=None, cookie="", **headers):
        """Status, headers and body of an answer."""
        connection = http.client.HTTPConnection("127.0.0.1", self.port, timeout=20)
        given = {name.replace("_", "-"): it for name, it in headers.items() if it is not None}
        if cookie is not None:
            given["Cookie"] = cookie or self.cookie
        try:
            connection.putrequest(method, path, skip_host="Host" in given)
            for name, it in given.items():
                connection.putheader(name, it)
            if "Content-Length" not in given:
                connection.putheader("Content-Length", str(len(body or b"")))
            connection.endheaders(body)
            answer = connection.getresponse()
            return answer.status, dict(answer.getheaders()), answer.read()
        finally:
            connection.close()

    def data(self, **given):
        status, _, body = self.ask("GET", "/data?" + urlencode(given))
        self.assertEqual(status, 200, body)
        return json.loads(body)

    def rows(self, **given):
        return {it["name"]: it for it in self.data(view="requests", **given)["rows"]}

    def one(self, name, **given):
        return self.data(view="request", name=name, **given)

    def act(self, action, name, stage=None, value=None, who="Ada", **more):
        headers = {"Origin": f"http://127.0.0.1:{self.port}", "X_CF_Token": self.page.door.post_token}
        asked = {"action": action, "name": name, "stage": stage, "value": value, "who": who, "number": self.one(name)["number"]}
        status, _, body = self.ask("POST", "/act", json.dumps({**asked, **more}).encode(), **headers)
        return status, json.loads(body)

    def text_of(self, name):
        return "\n".join(" ".join([text, *ends]) for _, text, ends, _ in self.one(name)["lines"])


class Door(WebCase):
    """Who is let in."""

    def setUp(self):
        super().setUp()
        self.page_over(Memory())

    def test_a_token_is_changed_for_a_cookie(self):
        door = self.page.door
        status, headers, body = self.ask("GET", f"/?token={door.token}", cookie=None)
        self.assertEqual((status, headers["Set-Cookie"].split("; ")[1:]), (200, ["Path=/", "HttpOnly", "SameSite=Strict"]))
        self.assertNotIn(door.token, headers["Set-Cookie"] + body.decode())
        again, is_page = self.ask("GET", "/"), headers["Content-Security-Policy"] == self.page.page.policy
        self.assertEqual((again[0], is_page, again[2][:99]), (200, True, body[:99]))
        for path in ("/", "/data", "/live", "/metrics", "/payload", "/picture", "/?token=", "/?token=x"):
            with self.subTest(path):
                status, headers, body = self.ask("GET", path, cookie=None)
                self.assertEqual((status, TEXTS["no_token"] in body.decode()), (401, True))
                self.assertNotIn("Set-Cookie", headers)
        for cookie in (f"{door.cookie_name}=", f"{door.cookie_name}={door.token}", "x=y", "{;=\x01", self.cookie + "x"):
            self.assertEqual(self.ask("GET", "/", cookie=cookie)[0], 401, cookie)

    def test_programs_send_the_token_itself(self):
        token = self.page.door.token
        self.assertEqual(self.ask("GET", "/metrics", cookie=None, Authorization=f"Bearer {token}")[0], 200)
        for given in (token, f"Basic {token}", f"Bearer {token}x", "Bearer", ""):
            self.assertEqual(self.ask("GET", "/metrics", cookie=None, Authorization=given)[0], 401, given)

    def test_other_hosts_and_sites(self):
        port = self.port
        for host in (f"localhost:{port}", f"LOCALHOST:{port}", f"[::1]:{port}"):
            self.assertEqual(self.ask("GET", "/", Host=host)[0], 200, host)
        for host in ("evil.example", f"evil.example:{port}", "127.0.0.1", f"127.0.0.1:{port + 1}", "", f"127.0.0.1.evil.example:{port}"):
            self.assertEqual(self.ask("GET", "/", Host=host)[0], 421, host)
            self.assertEqual(self.ask("GET", f"/?token={self.page.door.token}", cookie=None, Host=host)[0], 421, host)
        for origin in ("http://evil.example", f"https://127.0.0.1:{port}", f"http://127.0.0.1:{port + 1}", "null", f"http://localhost:{port}"):
            self.assertEqual(self.ask("GET", "/data", Origin=origin)[0], 403, origin)
        self.assertEqual(self.ask("GET", "/data", Origin=f"http://127.0.0.1:{port}")[0], 200)
        for site in ("cross-site", "same-site"):
            self.assertEqual(self.ask("GET", "/data", Sec_Fetch_Site=site)[0], 403)
            self.assertEqual(self.ask("GET", "/", Sec_Fetch_Site=site, Sec_Fetch_Mode="no-cors")[0], 403)
            link = {"Sec_Fetch_Site": site, "Sec_Fetch_Mode": "navigate", "Sec_Fetch_Dest": "document"}
            self.assertEqual(self.ask("GET", "/", **link)[0], 200)
            self.assertEqual(self.ask("GET", "/", **{**link, "Sec_Fetch_Dest": "iframe"})[0], 403)
            self.assertEqual(self.ask("GET", "/data", **link)[0], 403)
        self.assertEqual(self.ask("GET", "/data", Sec_Fetch_Site="same-origin")[0], 200)

    def test_behind_a_proxy(self):
        """The Origin is the public address, and the Host that one's or the server's own, as the proxy sends it on."""
        page = self.page_over(Memory(), public="HTTPS://Ops.example:443/")
        self.assertEqual(page.address, f"https://ops.example/?token={page.door.token}")
        cookie = self.ask("GET", f"/?token={page.door.token}", cookie=None, Host="ops.example")[1]["Set-Cookie"]
        self.assertEqual(cookie.split("; ")[1:], ["Path=/", "HttpOnly", "SameSite=Strict", "Secure"])
        own = f"127.0.0.1:{self.port}"
        for host, origin, status in (
            ("ops.example", "https://ops.example", 400),
            (own, "https://ops.example", 400),
            ("ops.example:443", "https://ops.example", 400),
            (own, f"http://{own}", 400),
            ("ops.example", "http://ops.example", 403),
            (own, "http://ops.example", 403),
            ("ops.example", "https://evil.example", 403),
            (own, "", 403),
            ("ops.example", f"http://{own}", 403),
            ("evil.example", "https://ops.example", 421),
            (f"ops.example:{self.port}", "https://ops.example", 421),
        ):
            with self.subTest(f"{host} {origin}"):
                headers = {"Host": host, "Origin": origin, "X_CF_Token": page.door.post_token}
                self.assertEqual(self.ask("POST", "/act", b"{}", **headers)[0], status)
        self.page_over(Memory(), public="http://[::1]:8080")
        self.assertTrue(self.page.address.startswith("http://[::1]:8080/?token="))
        self.assertEqual(self.ask("GET", "/", Host="[::1]:8080")[0], 200)
        for wrong in (
            "ops.example",
            "ftp://ops.example",
            "https://",
            "https://ops.example/cf",
            "https://a@ops.example",
            "https://ops.example?a=1",
            "https://ops.example:x",
        ):
            with self.subTest(wrong), self.assertRaises(ValueError):
                Server(Memory(), public=wrong)

    def test_slow_and_many_connections(self):
        """A connection whose request doesn't come is ended, however slowly it comes; one too many is refused."""
        with unittest.mock.patch.object(server, "MOST_CONNECTIONS", 3):
            self.page_over(Memory())
        self.until(lambda: self.page._free._value == 3)
        slow = [socket.create_connection(("127.0.0.1", self.port), 20) for _ in range(3)]
        slow[0].sendall(b"GET / HTTP/1.1\r\n")
        own = f"127.0.0.1:{self.port}"
        slow[1].sendall(
            f"POST /act HTTP/1.1\r\nHost: {own}\r\nOrigin: http://{own}\r\nCookie: {self.cookie}\r\n"
            f"X-CF-Token: {self.page.door.post_token}\r\nContent-Length: 9\r\n\r\n{{".encode()
        )
        self.until(lambda: self.page._free._value == 0)
        with socket.create_connection(("127.0.0.1", self.port), 20) as late:
            self.assertTrue(late.makefile("rb").read().startswith(b"HTTP/1.1 503 "))
        with unittest.mock.patch.object(server, "PATIENCE", 0):
            for it in slow:
                it.makefile("rb").read()  # (until the server has ended it)
                it.close()
            self.until(lambda: self.page._free._value == 3)
        self.assertEqual(self.ask("GET", "/")[0], 200)
        self.until(lambda: not self.page._reading)

    def test_a_connection_is_kept_until_something_is_refused(self):
        self.page_over(Memory())
        with contextlib.closing(http.client.HTTPConnection("127.0.0.1", self.port, timeout=20)) as connection:
            for path, status, told in [("/", 200, None), ("/data?view=sessions", 200, None), ("/nothing", 404, "close")]:
                connection.request("GET", path, headers={"Cookie": self.cookie})
                answer = connection.getresponse()
                answer.read()
                self.assertEqual((path, answer.status, answer.headers["Connection"]), (path, status, told))

    def test_actions_that_are_forged(self):
        store = self.page.board.store
        opened = store.open("r", text_of(None, f.functions))
        body = json.dumps({"action": "end", "name": "r", "number": opened.number, "who": "Eve"}).encode()
        right = {"Origin": f"http://127.0.0.1:{self.port}", "X_CF_Token": self.page.door.post_token}
        for wrong, status in (
            ({"X_CF_Token": None}, 403),
            ({"X_CF_Token": self.page.door.token}, 403),
            ({"X_CF_Token": ""}, 403),
            ({"Origin": None}, 403),
            ({"Origin": "null"}, 403),
            ({"Origin": "http://evil.example"}, 403),
            ({"Host": "evil.example"}, 421),
            ({"Sec_Fetch_Site": "cross-site"}, 403),
            ({"cookie": None}, 401),
            ({"cookie": "x=y"}, 401),
        ):
            with self.subTest(wrong):
                self.assertEqual(self.ask("POST", "/act", body, **{**right, **wrong})[0], status)
        asked = urlencode({"action": "end", "name": "r", "number": opened.number, "who": "Eve"})
        self.assertEqual(self.ask("GET", f"/act?{asked}", **right)[0], 404)
        self.assertEqual(self.ask("POST", "/data", body, **right)[0], 404)
        for method in ("PUT", "DELETE", "OPTIONS", "HEAD"):
            self.assertEqual(self.ask(method, "/act", body, **right)[0], 501)
        self.assertIn("r", store.ends())
        self.assertEqual(self.ask("POST", "/act", body, **right)[0], 200)
        self.assertNotIn("r", store.ends())

    def test_what_is_no_action(self):
        right = {"Origin": f"http://127.0.0.1:{self.port}", "X_CF_Token": self.page.door.post_token}
        for length in ("-1", "x", "", "\u00b2", "0x10", "1" * 30):
            self.assertEqual(self.ask("POST", "/act", **{**right, "Content_Length": length})[0], 413, length)
        for body in (
            b"",
            b"{",
            b"[]",
            b"7",
            b"\xff",
            b"{}",
            b'{"action": "end"}',
            b"[" * 100_000,
            b'{"action": "shout", "name": "r", "number": 1, "who": "a"}',
            b'{"action": "end", "name": 7, "number": 1, "who": "a"}',
        ):
            self.assertEqual(self.ask("POST", "/act", body, **right)[0], 400, body)
        many = {**right, "Content_Length": "10000000"}
        connection = http.client.HTTPConnection("127.0.0.1", self.port, timeout=20)
        headers = {name.replace("_", "-"): it for name, it in many.items()}
        connection.request("POST", "/act", headers={"Cookie": self.cookie, **headers})
        self.assertEqual(connection.getresponse().status, 413)
        connection.close()

    def test_the_policy_lets_only_its_own_script_run(self):
        _, headers, body = self.ask("GET", "/")
        policy, text = headers["Content-Security-Policy"], body.decode()
        self.assertNotIn("unsafe", policy)
        self.assertIn("default-src 'none'", policy)
        self.assertIn("frame-ancestors 'none'", policy)
        for name in ("script", "style"):
            whole = re.search(rf"<{name}>(.*?)</{name}>", text, re.S)[1]
            digest = base64.b64encode(hashlib.sha256(whole.encode()).digest()).decode()
            self.assertIn(f"{name}-src 'sha256-{digest}'", policy)
        for path in ("/", "/data", "/metrics", "/nowhere"):
            headers = self.ask("GET", path)[1]
            wanted = {
                "X-Content-Type-Options": "nosniff",
                "Referrer-Policy": "no-referrer",
                "Cache-Control": "no-store",
                "Cross-Origin-Resource-Policy": "same-origin",
            }
            self.assertEqual({name: headers[name] for name in wanted}, wanted)
            self.assertNotIn("Access-Control-Allow-Origin", headers)
        elsewhere = re.findall(r"(?:src|href|url|import|from)\s*[=(]?\s*[\"']?(?:https?:)?//[^\s\"')]+", text)
        self.assertEqual(elsewhere, [])
        self.assertNotIn(" on", "".join(re.findall(r"<\w+[^>]*\son\w+=", text.split("<script")[0])))
        self.assertIsNone(re.search(r"innerHTML|outerHTML|insertAdjacentHTML|document\.write|eval\(|DOMParser", text))

    def test_read_only(self):
        store = Memory()
        self.page_over(store, is_read_only=True)
        service = DurableService(store, 0, functions=f.functions, lease=60)
        self.services.append(service)
        service.request("r").promise()
        self.until(lambda: "r" in self.rows() and self.rows()["r"]["state"] == "waiting")
        for action in ("cancel", "complete", "fail", "end", "drop"):
            right = {"Origin": f"http://127.0.0.1:{self.port}", "X_CF_Token": self.page.door.post_token}
            body = json.dumps({"action": action, "name": "r", "number": store.find("r").number, "stage": 0, "value": "1", "who": "Ada"}).encode()
            status, _, said = self.ask("POST", "/act", body, **right)
            self.assertEqual((status, TEXTS["read_only"] in said.decode()), (403, True))
        time.sleep(2.5)  # (in which a page that may write keeps a glance)
        self.assertEqual((len(store.read("r")), store.session_names("r"), store._glances), (1, {}, {}))
        self.assertIn('"readOnly": true', self.ask("GET", "/")[2].decode())


class Hostile(WebCase):
    """Names and values that try to be markup."""

    def test_hostile_names_and_values(self):
        store, functions = Memory(), Functions()
        bad = functions.function(HOSTILE)(lambda: HOSTILE)
        service = DurableService(store, 1, functions=functions, lease=60)
        self.services.append(service)
        flow = Flow(HOSTILE)
        flow.promise(HOSTILE), flow.supply(bad)
        self.page_over(store, title=HOSTILE, who=HOSTILE)
        request = service.start(flow, name=HOSTILE)
        request.supply(bad).result(20)
        request.promise(HOSTILE).fail(RuntimeError(HOSTILE))
        self.until(lambda: self.rows().get(HOSTILE, {}).get("state") == "waiting")
        self.assertEqual(self.act("complete", HOSTILE, 0, json.dumps(HOSTILE), who="<b>\n")[0], 200)
        with_names = self.one(HOSTILE)
        self.assertEqual(with_names["name"], HOSTILE)
        self.assertIn("<b> (by hand) completes 0 </script>", json.dumps(with_names["lines"]))
        paths = [
            "/data?view=requests",
            "/data?" + urlencode({"view": "request", "name": HOSTILE}),
            "/payload?" + urlencode({"name": HOSTILE, "number": 0, "place": 1}),
            "/data?view=sessions",
            "/data?view=queues",
            "/metrics",
        ]
        for path in paths:
            _, headers, body = self.ask("GET", path)
            with self.subTest(path):
                self.assertIn(headers["Content-Type"].split(";")[0], ("application/json", "text/plain"))
                self.assertNotIn("\u202e", body.decode())
        told = [it for it in with_names["said"] + with_names["flow"] + str(with_names["lines"]) if not it.isprintable()]
        self.assertEqual(told, [])
        text = self.ask("GET", "/")[2].decode()
        self.assertNotIn("<img", text)
        self.assertEqual((text.count("<script"), text.count("</script>")), (2, 2))
        block = text.split('id="said">')[1].split("</script>")[0]
        self.assertEqual((json.loads(block)["title"], json.loads(block)["who"]), (HOSTILE, HOSTILE))
        status, _, body = self.ask("GET", "/data?" + urlencode({"view": "request", "number": "<b>"}))
        self.assertEqual((status, b"<b>" in body), (400, False))

    def test_hostile_names_in_metrics(self):
        """A name ends neither its label nor its line."""
        store, functions = Memory(), Functions()
        bad = functions.function(HOSTILE)(lambda: HOSTILE)
        service = DurableService(store, 0, functions=functions, lease=60)
        self.services.append(service)
        self.page_over(store)
        service.request("r").supply(bad)
        self.until(lambda: b"cf_ready_stages{" in self.ask("GET", "/metrics")[2])
        text = self.ask("GET", "/metrics")[2].decode()
        (line,) = [line for line in text.split("\n") if line.startswith("cf_ready_stages{")]
        self.assertRegex(line, r'^cf_ready_stages\{function="([^"\\]|\\["\\n])*",version="1"\} 1$')
        self.assertFalse([line for line in text.split("\n")[:-1] if not line.startswith(("# ", "cf_"))])

    def test_a_broken_name_is_told_as_text(self):
        store = Memory()
        self.page_over(store)
        opened = store.open("r", text_of(None, f.functions))
        store.append(Put("r", 0, [(77, 7)], {}, opened.number))
        self.until(lambda: self.rows().get("r", {}).get("state") == "broken")
        self.assertIn("place 1", self.rows()["r"]["why"])
        status, _, body = self.ask("GET", "/payload?" + urlencode({"name": "r", "number": opened.number, "place": 1}))
        self.assertEqual(status, 409)
        store.open("<i>", "<i>")
        status, _, body = self.ask("GET", "/payload?" + urlencode({"name": "<i>", "number": 0, "place": 1}))
        self.assertEqual((status, b"<i>" in body), (409, False))

    @unittest.skipIf(os.name != "posix", "takes a shell")
    def test_a_picture_has_an_origin_of_its_own(self):
        (program := Path(self.folder.name, "cf_look")).write_text(
            f"#!/bin/sh\nprintf '<script type=x>1</script><script>run()</script>'; cat > {self.folder.name}/account\n"
        )
        program.chmod(0o755)
        store = Memory()
        service = DurableService(store, 0, functions=f.functions)
        self.services.append(service)
        service.request("r").promise(HOSTILE)
        self.page_over(store, cf_look=str(program))
        status, headers, body = self.ask("GET", "/picture?" + urlencode({"name": "r", "number": 0}))
        self.assertNotIn(b"<style>", body)
        digest = base64.b64encode(hashlib.sha256(b"run()").digest()).decode()
        policy = headers["Content-Security-Policy"]
        self.assertEqual((status, body), (200, b"<script type=x>1</script><script>run()</script>"))
        self.assertTrue(policy.startswith("sandbox allow-scripts; default-src 'none'"))
        self.assertIn(f"script-src 'sha256-{digest}';", policy)
        self.assertIn("frame-ancestors 'self'", policy)
        self.assertNotIn("allow-same-origin", policy)
        self.assertEqual(len(json.loads(Path(self.folder.name, "account").read_text())["events"]), 1)
        program.write_text("#!/bin/sh\ncat > /dev/null; printf '<html lang=en><script>run()</script>'\n")
        service.request("r").promise()
        for theme, wanted in (("dark", b'<html data-theme="dark" lang=en>'), ('"><b>', b"<html lang=en>")):
            asked = urlencode({"name": "r", "number": 0, "theme": theme})
            self.assertEqual(self.ask("GET", "/picture?" + asked)[2], wanted + b"<script>run()</script>")
        program.write_text("#!/bin/sh\ncat > /dev/null; printf '<head></head></head><script>run()</script>'\n")
        service.request("r").promise()
        body = self.ask("GET", "/picture?" + urlencode({"name": "r", "number": 0}))[2]
        self.assertRegex(body.decode(), r"^<head><style>[^<]*</style></head></head><script>run\(\)</script>$")
        asked = "/picture?" + urlencode({"name": "r", "number": 0, "ready": 1})
        self.assertEqual(self.ask("GET", asked)[::2], (200, b"{}"))  # it can be had
        program.write_text("#!/bin/sh\nexit 1\n")
        service.request("r").promise()
        self.assertEqual(self.ask("GET", asked)[0], 500)
        self.assertEqual(self.ask("GET", "/picture?" + urlencode({"name": "r", "number": 0}))[0], 500)
        self.page_over(store)
        self.assertEqual(self.ask("GET", "/picture?" + urlencode({"name": "r", "number": 0}))[0], 404)
        self.assertIs(self.one("r")["picture"], False)


class Lists(WebCase):
    def test_states_and_filters(self):
        for service, name in self.each():
            self.page_over(service.store)
            flow = Flow("of a kind")
            flow.promise("answer")
            service.start(flow, name=name + " waits")
            service.request(name + " runs").supply(f.hold)
            self.elsewhere(service.store, name[len(self.name) :], name + " ready")
            service.request(name + " done").supply(f.inc, 1).result(20)
            service.request(name + " closed").end()
            wanted = {" waits": "waiting", " runs": "running", " done": "done", " ready": "ready"}
            self.until(lambda: {key[len(name) :]: it["state"] for key, it in self.rows(part=name).items()} == wanted)
            rows = self.rows(part=name)
            self.assertEqual((rows[name + " waits"]["flow"], rows[name + " waits"]["waits"]), ("of a kind", [[0, "answer", "pending"]]))
            self.assertEqual(rows[name + " runs"]["sessions"][0]["id"], f"{service.session:010x}")
            self.assertEqual(list(self.rows(part=name, state="waiting")), [name + " waits"])
            self.assertEqual(list(self.rows(part=name, flow="of a kind")), [name + " waits"])
            self.assertNotIn(name + " waits", self.rows(part=name, flow=""))
            self.assertEqual(list(self.rows(session=f"{service.session:x}", part=name)), [name + " runs"])
            self.assertEqual(self.rows(session="1", part=name), {})
            told = [self.data(view="requests", **its)["session"] for its in ({"session": "1"}, {})]
            self.assertEqual((told[0]["id"], told[1]), ("0000000001", None))
            self.assertEqual(list(self.rows(part=name.upper() + " WAITS")), [name + " waits"])
            self.assertEqual(self.data(view="requests", part=name)["counts"]["waiting"], 1)
            closed = self.rows(state="closed", part=name)
            self.assertEqual({key: it["state"] for key, it in closed.items()}, {name + " closed": "closed"})
            queues = [[it["version"], it["many"]] for it in self.data(view="queues")["rows"] if it["function"] == name]
            self.assertEqual(queues, [[3, 1]])

            def its(number=f"{service.session:010x}"):
                return [it for it in self.data(view="sessions")["rows"] if it["id"] == number]

            self.until(lambda: [it["there"] for it in its()] == [True])
            self.assertEqual(its()[0]["name"], f"{socket.gethostname()} {os.getpid()}")
            self.assertEqual([run[0] for run in its()[0]["runs"]], [name + " runs"])

    def elsewhere(self, store, address, name):
        """A request whose function no process knows that works on it."""
        unknown = Functions()
        function = unknown.function(name[: -len(" ready")], version=3)(lambda: 1)
        asks = DurableService(store if address == "memory://" else connect(address), 0, functions=unknown)
        self.services.append(asks)
        asks.request(name).supply(function)

    @staticmethod
    def handed(body):
        """The list that a page was handed."""
        return json.loads(body.decode().split('id="said">')[1].split("</script>")[0])["first"]

    def test_a_page_comes_with_its_list(self):
        """It waits for a store that tells its first requests a moment later."""

        class Late(Memory):
            def overview(self):
                time.sleep(0.2)
                return super().overview()

        store = Late()
        store.open(HOSTILE, text_of(self.flow(), f.functions))
        self.page_over(store)
        self.assertEqual([it["name"] for it in self.handed(self.entered)["rows"]], [HOSTILE])
        self.until(lambda: self.rows()[HOSTILE]["state"] == "ready")
        told, first = self.data(view="requests"), self.handed(self.ask("GET", "/")[2])
        self.assertEqual(first, {**told, "now": first["now"], "rate": first["rate"]})

    def test_a_list_is_answered_while_others_are_taken_over(self):
        store = Memory()
        store.open("r", text_of(self.flow(), f.functions))
        page = self.page_over(store)
        self.until(lambda: "r" in self.rows())
        with page.board._change:  # (for 10,000 requests it is taken for a second, where processors are)
            self.assertIn("r", self.rows())
            self.assertEqual(len(self.handed(self.ask("GET", "/")[2])["rows"]), 1)

    def test_a_page_of_a_store_that_says_nothing_yet(self):
        """.. comes all the same."""
        answers = threading.Event()

        class Silent(Memory):
            def overview(self):
                answers.wait(30)
                return super().overview()

        began = time.monotonic()
        self.page_over(Silent())
        self.assertLess(time.monotonic() - began, 5)
        self.assertEqual((self.handed(self.entered)["known"], self.handed(self.entered)["rows"]), (False, []))
        answers.set()

    def test_looks_take_turns_by_what_they_cost(self):
        """A store that is slow since others take the processors is looked at as often as it answers."""

        began, ended = [], []

        class Slow(Memory):
            def overview(self):
                began.append(time.monotonic())
                time.sleep(0.2)
                ended.append(time.monotonic())
                return super().overview()

        self.page_over(Slow())
        self.until(lambda: len(began) > 5)
        self.assertLess(min(b - a for a, b in zip(ended, began[1:])), 0.3)

    def test_a_put_of_glances_holds_nobody_up(self):
        """It may wait for a disk for long."""
        waits, goes_on = threading.Event(), threading.Event()

        class Slow(Memory):
            def keep_glances(self, glances):
                waits.set()
                goes_on.wait(30)

        store = Slow()
        store.open("a", text_of(self.flow(), f.functions))
        self.page_over(store)
        self.assertTrue(waits.wait(20))
        store.open("b", text_of(self.flow(), f.functions))
        self.until(lambda: "b" in self.rows())
        goes_on.set()

    def test_rows_that_nobody_looks_at_are_read_now_and_then(self):
        class Counting(Memory):
            reads = 0

            def read_rows(self, wanted):
                self.reads += 1
                return super().read_rows(wanted)

        store, began = Counting(), time.monotonic()
        page = self.page_over(store)
        for k in range(20):
            store.open(f"r{k}", text_of(self.flow(), f.functions))
            time.sleep(0.1)
        self.until(lambda: all((line := page.board.line(f"r{k}")) and line.seen for k in range(20)))
        self.assertLess(store.reads, 5 + time.monotonic() - began)

    def test_a_session_that_is_gone(self):
        store = Memory()
        gone, unheard = new_session(), new_session()
        for name, session in [("r", gone), ("s", unheard)]:
            opened = store.open(name, text_of(self.flow(), f.functions))
            view = RowView(store, opened, session)
            view.act(lambda view: [(4 << 56 | view.caller_number << 48, None)])
        store.beat(gone), store.name_session(gone, "host 7")
        self.page_over(store)
        self.until(lambda: self.rows().get("r", {}).get("state") == "running")
        self.until(lambda: {it["state"] for it in self.rows().values()} == {"gone"})
        sessions = sorted((it["name"], it["there"], it["runs"][0][:4]) for it in self.data(view="sessions")["rows"])
        self.assertEqual(sessions, [("", False, ["s", "s", 0, "load"]), ("host 7", False, ["r", "r", 0, "load"])])
        self.assertIn('cf_sessions{state="gone"} 2', self.ask("GET", "/metrics")[2].decode())
        self.assertIs(self.one("r")["stages"][0]["session"]["there"], False)

    def test_words_that_have_no_glance(self):
        """The row is read, as far as it is new."""
        store = connect(self.address)
        opened = store.open("r", text_of(self.flow(), f.functions))
        self.page_over(store)
        self.until(lambda: self.rows().get("r", {}).get("state") == "ready")
        view = RowView(store, opened, new_session())
        view.act(lambda view: [(4 << 56 | view.caller_number << 48, None)])
        self.until(lambda: (self.rows()["r"]["state"], self.rows()["r"]["words"]) == ("running", 1))

    def test_a_row_that_is_read_before_its_last_word_is_there(self):
        """A member of etcd that lags behind knows fewer words than are told. The row is read again."""

        class Lagging(Memory):
            late = 3

            def read(self, name, at=0, number=0):
                entries = super().read(name, at, number)
                if not entries or not self.late:
                    return entries
                self.late -= 1
                return entries[:-1]

            def changes(self, mark):
                changes, names = super().changes(mark)
                return (changes if mark is None else Changes([], {}, [])), names  # (each is told once)

        for is_looked_at in (True, False):
            store = Lagging()
            opened = store.open("r", text_of(self.flow(), f.functions))
            view = RowView(store, opened, new_session())
            view.act(lambda view: [(4 << 56 | view.caller_number << 48, None)])
            page = self.page_over(store)
            self.until(
                lambda: (self.rows()["r"]["state"], store.late) == ("running", 0)
                if is_looked_at
                else (page.board.line("r") or view).seen and page.board.line("r").state == "running"
            )

    def test_rows_that_are_read_together(self):
        """.. are told each for itself, also where one of them can't be read, or isn't there any more."""

        class Counting(Memory):
            reads = 0

            def read_rows(self, wanted):
                self.reads += 1
                self.drop("gone")
                return super().read_rows(wanted)

        store = Counting()
        for k in range(20):
            opened = store.open(f"r{k:02}", text_of(self.flow(), f.functions))
            RowView(store, opened, new_session()).act(
                lambda view: [(7 << 56 | view.caller_number << 48 | 0 << 24, json.dumps({"name": f"more {k}"}).encode())]
            )
        store.open("gone", text_of(self.flow(), f.functions))
        store.append(Put("r07", 1, [(77, 7)], {}))
        store.open("r08 of another kind", "{}")
        self.page_over(store)
        self.until(lambda: "gone" not in self.rows() and all(it["state"] in ("ready", "broken") for it in self.rows().values()))
        self.assertEqual(sorted(name for name, it in self.rows().items() if it["state"] == "broken"), ["r07", "r08 of another kind"])
        self.assertEqual(self.rows()["r19"]["waits"], [[0, "load", "ready"], [1, "more 19", "pending"]])
        self.assertLess(store.reads, 5)

    @staticmethod
    def flow():
        flow = Flow("flow")
        flow.supply(f.load, 1)
        return flow

    def test_pages_of_a_hundred_and_no_row_is_read(self):
        class Counting(Memory):
            reads = 0

            def read(self, name, at=0, number=0):
                self.reads += 1
                return super().read(name, at, number)

        store = Counting()
        plan = text_of(None, f.functions)
        for k in range(250):
            store.open(f"r{k:03}", plan)
        first = self.page_over(store)
        self.until(lambda: self.data(view="requests")["counts"]["done"] == 250)
        self.until(lambda: len(store._glances) == 250)
        first.shutdown(), first.server_close(), self.pages.remove(first)
        store.reads = 0
        self.page_over(store)
        self.until(lambda: self.data(view="requests")["total"] == 250)
        told, names = self.data(view="requests"), []
        self.assertEqual((len(told["rows"]), told["counts"]["done"], told["next"]), (100, 250, "r099"))
        behind = ""
        while behind is not None:
            told = self.data(view="requests", behind=behind)
            names += [it["name"] for it in told["rows"]]
            behind = told["next"]
        self.assertEqual(names, [f"r{k:03}" for k in range(250)])
        self.assertEqual(list(self.rows(part="r24", behind="r245")), ["r246", "r247", "r248", "r249"])
        time.sleep(0.5)
        self.assertEqual(store.reads, 0)

    def test_changes_are_sent(self):
        request, took = self.service().request("r"), []
        promise = request.promise("answer")
        self.page_over(connect(self.address))
        self.until(lambda: self.rows().get("r", {}).get("state") == "waiting")
        listed, shown = self.live(view="requests"), self.live(view="request", name="r")
        self.assertEqual(next(listed)["rows"][0]["state"], "waiting")
        self.assertEqual(next(shown)["counts"], {"waiting": 1})
        for many in (1, 2, 3):
            if many > 1:
                promise = request.promise("answer")
                next(it for it in shown if it["counts"] == {"value": many - 1, "waiting": 1})
                next(it for it in listed if it["rows"][0]["state"] == "waiting")
            began = time.monotonic()
            promise.complete(7)
            self.assertIn("with 7", next(it for it in shown if it["counts"] == {"value": many})["lines"][-1][1])
            next(it for it in listed if it["rows"][0]["state"] == "done")
            took.append(time.monotonic() - began)
        self.assertLess(min(took), 1)
        request.end()
        next(it for it in listed if not it["rows"])
        next(it for it in shown if it["state"] == "closed")

    def test_how_often_changes_are_sent(self):
        """What the store is asked for is sent less often than a list."""
        store, rests, streams = Memory(), {}, []
        store.open("r", EMPTY)

        def sleep(seconds):
            rests.setdefault(threading.get_ident(), []).append(seconds)
            time.sleep(0.01)

        self.page_over(store)
        with unittest.mock.patch.object(server, "time", wraps=time) as clock:
            clock.sleep.side_effect = sleep
            for many, view in enumerate(("requests", "request"), 1):
                streams.append(self.live(view=view, name="r"))
                next(streams[-1])
                self.until(lambda many=many: len(rests) == many)
        listed, shown = rests.values()
        self.assertGreaterEqual(min(listed), server.AT_FIRST)
        self.assertLess(min(listed), server.BETWEEN_ASKED)
        self.assertGreaterEqual(min(shown), server.BETWEEN_ASKED)

    def live(self, **given):
        connection = http.client.HTTPConnection("127.0.0.1", self.port, timeout=20)
        connection.request("GET", "/live?" + urlencode(given), headers={"Cookie": self.cookie})
        answer = connection.getresponse()
        self.assertEqual((answer.status, answer.getheader("Content-Type")), (200, "text/event-stream; charset=utf-8"))
        self.addCleanup(connection.close)
        for line in answer:
            if line.startswith(b"data: "):
                yield json.loads(line[6:])

    def test_too_many_pages(self):
        with unittest.mock.patch("cf.store.web.server.MOST_LIVE", 1):
            self.page_over(Memory())
        next(self.live(view="requests"))
        self.assertEqual(self.ask("GET", "/live?view=requests")[0], 503)

    def test_metrics(self):
        service = self.service()
        service.request("r").promise()
        self.page_over(service.store)
        self.until(lambda: 'cf_open_requests{state="waiting"} 1\n' in self.ask("GET", "/metrics")[2].decode())
        self.until(lambda: "cf_words_per_second" in self.ask("GET", "/metrics")[2].decode())
        text = self.ask("GET", "/metrics")[2].decode()
        for line in text.splitlines():
            self.assertRegex(line, r'^(# (HELP|TYPE) cf_\w+ .+|cf_\w+(\{\w+="[^"]*"(,\w+="[^"]*")*\})? -?[\d.e+]+)$')
        self.assertRegex(text, r"cf_store_up 1\n(.*\n)*.*cf_words_total 1\n")


class Requests(WebCase):
    def test_what_a_request_tells(self):
        for service, name in self.each():
            self.page_over(service.store)
            request = service.request(name)
            request.supply(f.load, 17).then(f.number).result(20)
            request.promise("answer")
            told = self.one(name)
            self.assertEqual([told[it] for it in ("said", "words", "all", "open", "events")], [name, 7, 3, 1, 7])
            self.assertEqual(told["counts"], {"value": 2, "waiting": 1})
            (stage,) = told["stages"]
            self.assertEqual([stage[it] for it in ("n", "name", "form", "state")], [2, "answer", "source", "waiting"])
            self.assertIn("0 load ends: {'number': 17, 'extra': 0}", self.text_of(name))
            self.assertEqual([at for at, *_ in self.one(name, before=3)["lines"]], [1, 2, 3])
            given = [at for at, _, _, has in told["lines"] if has]
            asked = [urlencode({"name": name, "number": told["number"], "place": at}) for at in given]
            texts = [json.loads(self.ask("GET", "/payload?" + it)[2]) for it in asked]
            self.assertIn('{\n  "number": 17,\n  "extra": 0\n}', [it["text"] for it in texts])
            number = told["number"]
            request.end(), service.store.drop(name)
            self.assertEqual(self.one(name, number=number)["state"], "dropped")
            asked = urlencode({"name": name, "number": number, "place": 1})
            self.assertEqual(self.ask("GET", "/payload?" + asked)[0], 404)

    def test_a_value_that_is_no_json(self):
        store = Memory()
        service = DurableService(store, 0, functions=f.functions)
        self.services.append(service)
        request = service.request("r")
        request.promise("a").complete([1]), request.promise("b").fail(ValueError("x"))
        store._payloads["r", 2], store._payloads["r", 4] = b"\xff\x00no", b"\xff"
        self.page_over(store)
        self.assertEqual(self.text_of("r").count(TEXTS["unread"]), 4)
        told = json.loads(self.ask("GET", "/payload?name=r&number=0&place=2")[2])
        self.assertEqual((told["text"], told["bytes"]), ("\ufffd\\u0000no", 4))
        store._payloads["r", 2] = b'"' + b"x" * 300_000 + b'"'
        told = json.loads(self.ask("GET", "/payload?name=r&number=0&place=2")[2])
        self.assertEqual((len(told["text"]), told["bytes"], told["cut"]), (200_000, 300_002, True))
        store._payloads["r", 2] = '{"ü": 1}'.encode()
        self.assertEqual(json.loads(self.ask("GET", "/payload?name=r&number=0&place=2")[2])["text"], '{\n  "ü": 1\n}')
        store._payloads["r", 2] = b"[" * 100_000
        self.assertEqual(json.loads(self.ask("GET", "/payload?name=r&number=0&place=2")[2])["bytes"], 100_000)
        told = json.loads(self.ask("GET", "/payload?name=r&number=0&place=77")[2])
        self.assertEqual(told["text"], TEXTS["no_payload"])


class Acting(WebCase):
    def test_each_action_is_one_word_of_somebody(self):
        for service, name in self.each():
            self.page_over(service.store)
            request = service.request(name)
            stages = [request.promise(f"p{k}") for k in range(5)]
            self.assertEqual(self.act("complete", name, 0, '{"a": [1, null]}'), (200, {"done": True, "said": TEXTS["done"]}))
            self.assertEqual(stages[0].result(20), {"a": [1, None]})
            self.assertEqual(self.act("complete", name, 1, "null", who="Bob")[1]["done"], True)
            self.assertIsNone(stages[1].result(20))
            self.assertEqual(self.act("fail", name, 2, "no <b>stock</b>")[1]["done"], True)
            self.assertEqual(repr(stages[2].exception(20)), "RuntimeError('no <b>stock</b>')")
            self.assertEqual(self.act("cancel", name, 3, who="Eve\u202e")[1]["done"], True)
            self.until(stages[3].cancelled)
            self.assertEqual(self.one(name)["words"], 9)
            text = self.text_of(name)
            for said in (
                "Ada (by hand) completes 0 p0 with {'a': [1, None]}",
                "Bob (by hand) completes 1 p1 with nil",
                "Ada (by hand) fails 2 p2 with RuntimeError('no <b>stock</b>')",
                "Eve\\u202e (by hand) cancels 3 p3",
            ):
                self.assertIn(said, text)
            self.assertIn("Ada (by hand) completes", str(request.history()))  # in each process
            self.assertEqual(self.act("drop", name), (200, {"done": False, "said": TEXTS["drop_open"]}))
            self.assertEqual(self.act("end", name, cancels=True)[1], {"done": True, "said": TEXTS["closed"].format(1)})
            self.until(stages[4].cancelled)
            self.assertNotIn(name, service.store.ends())
            self.assertEqual(self.act("end", name)[1], {"done": False, "said": TEXTS["closed_before"]})
            self.assertEqual(self.act("drop", name)[1], {"done": True, "said": TEXTS["dropped"]})
            self.assertIsNone(service.store.find(name))

    def test_what_makes_no_sense(self):
        service = self.service()
        service.request("r").promise()
        self.page_over(service.store)
        for asked in (
            ("complete", "r", 0, "{"),
            ("complete", "r", 0, ""),
            ("fail", "r", 0, " "),
            ("complete", "r", 0, "[" * 100_000),
            ("complete", "r", 0, "NaN"),
            ("complete", "r", 0, "[-Infinity]"),
            ("fail", "r", 0, "x" * 3000),
            ("cancel", "r", 1),
            ("cancel", "r", -1),
            ("cancel", "r", "0"),
            ("cancel", "r", True),
            ("cancel", "r"),
        ):
            self.assertEqual(self.act(*asked)[0], 400, asked)
        self.assertEqual(self.act("cancel", "r", 0, who=" ")[0], 400)
        self.assertEqual(self.act("cancel", "r", 0, who="x" * 65)[0], 400)
        self.assertEqual(self.act("cancel", "r", 0, number=77)[0], 404)
        self.assertEqual(self.one("r")["words"], 1)

    def test_two_who_act_at_once(self):
        """Exactly one of them did it, and the other one is told so."""
        for service, name in self.each():
            self.page_over(service.store)
            request = service.request(name)
            for k in range(8):
                request.promise()
                told = []

                def act(who, k=k, told=told):
                    told.append(self.act("complete", name, k, f'"{who}"', who))

                both = [threading.Thread(target=act, args=(who,)) for who in ("Ada", "Bob")]
                for it in both:
                    it.start()
                for it in both:
                    it.join()
                self.assertEqual(sorted(it["done"] for _, it in told), [False, True], told)
                self.assertIn({"done": False, "said": TEXTS["late"]}, [it for _, it in told])
                self.assertIn(request[k].result(20), ("Ada", "Bob"))
            self.assertEqual(self.one(name)["words"], 16)

    def test_a_number_of_before(self):
        """A page that is old names the request that it has shown, and not the next one of the name."""
        service = self.service()
        request = service.request("r")
        request.promise(), request.end()
        self.page_over(service.store)
        number = self.one("r")["number"]
        self.act("drop", "r")
        again = self.service().request("r")
        again.promise()
        for action in ("cancel", "end", "drop"):
            self.assertIn(self.act(action, "r", 0, number=number)[0], (404, 200))
        self.assertFalse(again[0].done())
        self.assertIn("r", service.store.ends())


class Away(WebCase):
    """A store that doesn't answer for a while, or refuses."""

    def test_a_store_that_is_away(self):
        class Silent(Memory):
            fault = None

            def _may(self):
                if self.fault:
                    raise self.fault

            def overview(self):
                self._may()
                return super().overview()

            def news(self, mark):
                self._may()
                return super().news(mark)

            def find(self, name):
                self._may()
                return super().find(name)

            def read(self, name, at=0, number=0):
                self._may()
                return super().read(name, at, number)

            def closed(self, behind, most, part=""):
                self._may()
                return super().closed(behind, most, part)

        store = Silent()
        store.open("r", text_of(None, f.functions))
        self.page_over(store)
        self.until(lambda: "r" in self.rows())
        number = self.one("r")["number"]
        for fault, status in ((Unknown("away <b>"), 503), (StoreError("no <b>"), 409)):
            began, store.fault = time.time(), fault
            self.until(lambda: self.data(view="requests")["away"] == str(fault))
            self.assertTrue(began <= self.data(view="requests")["awaySince"] <= time.time())
            self.assertIn("r", self.rows())  # what was known is shown
            self.assertIn("cf_store_up 0\n", self.ask("GET", "/metrics")[2].decode())
            with unittest.mock.patch.object(self, "one", lambda name: {"number": number}):
                got, said = self.act("end", "r", who="Ada", cancels=True)
            self.assertEqual((got, said["said"] == TEXTS["away"]), (status, status == 503))
            got, _, body = self.ask("GET", "/data?view=request&name=r&number=%d" % number)
            self.assertEqual((got, b"<b>" in body), (status, False))
            self.assertEqual(TEXTS["silent"] in html.unescape(body.decode()), status == 503)  # nothing was to be done
            self.assertEqual(self.ask("GET", "/data?view=requests&state=closed")[0], status)
            store.fault = None
            self.until(lambda: self.data(view="requests")["away"] == "")
            self.assertIn("cf_store_up 1\n", self.ask("GET", "/metrics")[2].decode())
        self.assertRegex(self.ask("GET", "/metrics")[2].decode(), r"cf_unknown_answers_total [1-9]")

    def test_rows_that_are_read_together_of_a_store_that_is_away(self):
        """A row that is broken is left out; what the store raises is raised, and is asked again."""
        store = Memory()
        number = store.open("r", text_of(None, f.functions)).number
        readings = Readings(store)
        for fault in (Unknown("away"), Broken("r", 1, "it doesn't fit"), None):
            with self.subTest(fault=fault), unittest.mock.patch.object(RowView, "catch_up", side_effect=fault):
                if isinstance(fault, Unknown):
                    self.assertRaises(Unknown, readings.reading_all, {"r": number}, True)
                else:
                    self.assertEqual(list(readings.reading_all({"r": number}, True)), [] if fault else ["r"])

    def test_a_request_that_is_dropped_before_its_row_is_read(self):
        store = Memory()
        board = self.page_over(store).board
        with unittest.mock.patch.object(type(board), "_read_some", lambda _: None):
            self.until(lambda: self.data(view="requests")["known"])
            store.open("r", text_of(None, f.functions))
            self.until(lambda: "r" in self.rows())
            self.assertIn("r", board._behind)
            store.drop("r")
            self.until(lambda: "r" not in self.rows())
            self.assertNotIn("r", board._behind)

    def test_whatever_a_store_raises(self):
        class Odd(Memory):
            left = 3

            def overview(self):
                self.left -= 1
                if self.left > 0:
                    raise KeyError("odd")
                return super().overview()

        store = Odd()
        store.open("r", text_of(None, f.functions))
        with self.assertLogs("cf.requests", "ERROR"):
            self.page_over(store)
            self.until(lambda: "r" in self.rows())

    def test_a_row_that_is_broken_can_be_closed(self):
        service = self.service()
        service.request("r").promise()
        service.shutdown()
        store = connect(self.address)
        store._db.execute("insert into cf_word (request, at, word, token) values (1, 5, 77, 7)")
        self.page_over(store)
        self.until(lambda: self.rows().get("r", {}).get("state") == "broken")
        told = self.one("r")
        self.assertEqual((told["state"], told["closed"]), ("broken", False))
        self.assertIn("no word stands there", told["why"])
        self.assertEqual(self.act("cancel", "r", 0, number=1)[0], 409)
        self.assertEqual(self.act("end", "r", number=1, cancels=True)[1]["done"], True)
        self.until(lambda: not self.rows())
        self.assertEqual(self.act("drop", "r", number=1)[1]["done"], True)


class Command(WebCase):
    def test_the_command(self):
        self.service().request("r").promise()
        token = Path(self.folder.name, "token")
        token.write_text("t" * 24 + "\n")
        words = [sys.executable, "-m", "cf.requests", "--store", self.address, "serve", "--token-file", str(token)]
        env = dict(os.environ, PYTHONPATH=str(CLIENT)) if not os.environ.get("CF_INSTALLED") else None
        for end in (signal.SIGTERM, signal.SIGINT):
            process = subprocess.Popen([*words, "--who", "Ada"], stdout=subprocess.PIPE, stderr=subprocess.PIPE, env=env, universal_newlines=True)
            self.processes.append(process)
            line = process.stdout.readline()
            address = re.search(r"http://127\.0\.0\.1:(\d+)/\?token=t{24}$", line.strip())
            self.port = int(address[1])
            self.assertEqual(self.ask("GET", "/?token=" + "t" * 24, cookie=None)[0], 200)
            self.assertIn(b'"who": "Ada"', self.ask("GET", "/", cookie=None, Authorization="Bearer " + "t" * 24)[2])
            with self.assertRaises(OSError):  # it listens on one address of the machine alone
                socket.create_connection(("127.0.0.2", self.port), 5).close()
            process.send_signal(end)
            self.assertEqual(process.wait(20), 0)
            process.stdout.close()
        token.write_text("short")
        for more in (["--token-file", str(token)], ["--cf-look", "/no/such/program"], ["--port", "99999"]):
            done = subprocess.run([*words[:6], *more], stderr=subprocess.PIPE, env=env, timeout=60)
            self.assertEqual((done.returncode, done.stderr.startswith(b"cf.requests: ")), (2, True), done.stderr)

    def test_an_address_is_told_without_its_password(self):
        from cf.requests import _without_secrets

        self.assertEqual(_without_secrets("postgresql://ada:secret@db:5432/orders?sslpassword=x"), "postgresql://db:5432/orders")
        self.assertEqual(_without_secrets("sqlite:////at/a.db"), "sqlite:////at/a.db")
        self.assertEqual(_without_secrets("etcd://a:1,b:2"), "etcd://a:1,b:2")


if __name__ == "__main__":
    unittest.main()
