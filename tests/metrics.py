#!/usr/bin/env python3
"""Tests the pages of an operator's address over the loopback: tests/metrics.py [--program PATH]

`make metrics` runs it, after `make install`. A server with a hostile name of an app gets a call of each kind. Then
each page is asked for: `promtool check metrics` accepts the metrics, each label reads back as the name, and the page for
people is balanced HTML without a script, with a picture of each app that has releases. A server of four workers gets a
known load from many clients at once, and its counts are compared with what that must give. `promtool` also checks
`examples/prometheus.yml` and `examples/alerts.yml`. It is of Debian's package `prometheus`; without it these checks are
left out, and a line says so. Prints each test that fails, and exits with 1 then.
"""

import argparse
import concurrent.futures
import hashlib
import html.parser
import http.client
import json
import pathlib
import re
import shutil
import socket
import subprocess
import sys
import tempfile
import time
import urllib.error
import urllib.request

TOP = pathlib.Path(__file__).resolve().parent.parent
NAME = r"""<script>alert("x")</script>\n{a="b"}&amp;'"""
PROFILE = f"""schema = 1
mirror = [{{ name = "m0", codebase = "http://127.0.0.1:8080/p/", budget = 1000 }}]

[[app]]
id = '''{NAME[:-1]}'''
default = "stable"
cohort = [{{ name = "stable", target = "1.0" }}]
release = [
    {{ version = "1.0", name = "a.bin", size = 10, sha256 = "{1:064x}" }},
    {{ version = "2.0", name = "b.bin", size = 20, sha256 = "{2:064x}" }},
]
"""
STALE = "schema = 1\nbase = 7\nedit = []\n"
REJECTED = 'schema = 1\nbase = 1\n[[edit]]\ndo = "set_share"\napp = "none"\ncohort = "stable"\nshare = 5\n'
PUBLISHED = 'schema = 1\nbase = 1\n[[edit]]\ndo = "add_app"\napp = "second"\ndefault = "all"\n'
VOID = {"meta"}
PACKAGE = b"0123456789"
# Two apps' worth of updates: the mirror has room for three of them.
LOADED = f"""schema = 1
mirror = [{{ name = "m0", codebase = "http://127.0.0.1:8080/p/", budget = 35 }}]

[[app]]
id = "demo"
default = "stable"
cohort = [{{ name = "stable", target = "2.0" }}]
release = [
    {{ version = "1.0", name = "demo-1.0.bin", size = 10, sha256 = "{hashlib.sha256(PACKAGE).hexdigest()}" }},
    {{ version = "2.0", name = "demo-2.0.bin", size = 10, sha256 = "{hashlib.sha256(PACKAGE[::-1]).hexdigest()}" }},
]
"""
WORKERS = 4
# How many messages of each kind are sent, by what must be counted.
OFFERS, INTERNALS, NOUPDATES, UNKNOWNS, SECONDS, MALFORMED, NOWHERE, LOST, FOUND = 3, 5, 40, 6, 7, 4, 5, 2, 1
failures = []


def expect(what, found, wanted):
    """Notes a test that fails."""
    if found != wanted:
        failures.append(f"{what}: found {found!r}, expected {wanted!r}")


def free_port():
    """A port that nothing listens on."""
    with socket.socket() as one:
        one.bind(("127.0.0.1", 0))
        return one.getsockname()[1]


def get(port, path, body=None):
    """The status, the type and the body of a page, or of the reply to a body."""
    try:
        with urllib.request.urlopen(f"http://127.0.0.1:{port}{path}", data=body, timeout=20) as reply:
            return reply.status, reply.headers["Content-Type"], reply.read().decode()
    except urllib.error.HTTPError as error:
        return error.code, error.headers["Content-Type"], error.read().decode()


class Reader(html.parser.HTMLParser):
    """Reads a document whose elements are closed in their order."""

    def __init__(self):
        super().__init__()
        self.open, self.names, self.strings = [], set(), []

    def handle_starttag(self, tag, attrs):
        self.names.add(tag)
        for name, _ in attrs:
            expect("attributes that run", name.startswith("on") or name in ("src", "href"), False)
        if tag not in VOID:
            self.open.append(tag)

    def handle_endtag(self, tag):
        expect("the element that ends", self.open.pop() if self.open else None, tag)

    def handle_data(self, data):
        self.strings.append(data)


def promtool(*words, given=None):
    """Runs promtool, if it is installed."""
    found = shutil.which("promtool")
    if found is None:
        print("(no promtool: its checks are left out)")
        return
    ran = subprocess.run([found, "check", *map(str, words)], input=given, capture_output=True, text=True, check=False)
    expect(f"promtool check {words[0]}: {ran.stdout}{ran.stderr}", ran.returncode, 0)


def check_metrics(port):
    """The metrics, once a script was published, one was stale and one rejected, one call was malformed, and a budget raised."""
    status, kind, metrics = get(port, "/metrics")
    expect("status of the metrics", (status, kind), (200, "text/plain; version=0.0.4; charset=utf-8"))
    promtool("metrics", given=metrics)
    samples = dict(line.rsplit(" ", 1) for line in metrics.splitlines() if not line.startswith("#"))
    for result in ("published", "stale", "rejected", "malformed"):
        expect(result, samples.get(f'omaha_publishes_total{{result="{result}"}}'), "1")
    for result in ("followed", "unreachable", "failed"):
        expect(result, samples.get(f'omaha_publishes_total{{result="{result}"}}'), "0")
    expect("raises", samples.get("omaha_raises_total"), "1")
    expect("reach of the history", samples.get("omaha_history_reachable"), "1")
    expect("edition", samples.get("omaha_edition"), "2")
    expect("budget", samples.get('omaha_mirror_budget_bytes{mirror="m0"}'), "2000")
    expect("granted", samples.get('omaha_mirror_granted_bytes{mirror="m0"}'), "0")
    value = re.search(r'omaha_releases\{app="((?:[^"\\]|\\.)*)"\} 2', metrics)
    escapes = {"\\\\": "\\", '\\"': '"', "\\n": "\n"}
    expect("label", value and re.sub(r"\\.", lambda it: escapes[it[0]], value[1]), NAME[:-1])


def check_pages(port):
    """The other pages."""
    expect("health", get(port, "/healthz"), (200, "text/plain; charset=utf-8", "edition 2\n"))
    status = get(port, "/status")[2]
    expect("status", re.fullmatch(r"edition 2\nstarted \d+\naddress [\d.:]+\nreplies 0\nm0 0 of 2000\n", status) is not None, True)
    status, kind, page = get(port, "/")
    expect("status of the page", (status, kind), (200, "text/html; charset=utf-8"))
    reader = Reader()
    reader.feed(page)
    reader.close()
    expect("open elements", reader.open, [])
    expect("elements that fetch or run", reader.names & {"script", "link", "img", "iframe", "object"}, set())
    expect("name of the app, in its section and in its picture", reader.strings.count(NAME[:-1]), 3)
    expect("pictures", page.count("<svg "), 1)
    expect("stuck clients", "above the target without a downgrade" in reader.strings, True)
    expect("last publish", re.search(r"<tr><th>2</th><td class=\"number\">\d+</td><td class=\"number\">1</td></tr>", page) is not None, True)
    expect("unknown path", get(port, "/metrics/")[0], 404)


def check_server(program, folder):
    """A server that gets a call of each kind."""
    profile = pathlib.Path(folder, "profile.toml")
    profile.write_text(PROFILE, encoding="utf-8")
    listen, port = free_port(), free_port()
    words = ["serve", "--profile", profile, "--packages", folder, "--listen", f"127.0.0.1:{listen}", "--operator", f"127.0.0.1:{port}"]
    with subprocess.Popen([program, *map(str, words)], stdout=subprocess.PIPE) as server:
        try:
            expect("first line", server.stdout.readline(), b"ready\n")
            for body in (STALE, REJECTED, PUBLISHED, "no script", "raise m0 2000"):
                get(port, "/operate", body.encode())
            check_pages(port)
            check_metrics(port)
        finally:
            server.kill()


def ask(app, version):
    """The body of an update check."""
    return json.dumps({"request": {"protocol": "3.1", "app": [{"appid": app, "version": version, "updatecheck": {}}]}}).encode()


def send(port, message):
    """Sends a message on a connection of its own, and returns the status; the body may be cut off."""
    method, path, body = message
    connection = http.client.HTTPConnection("127.0.0.1", port, timeout=20)
    try:
        connection.request(method, path, body)
        reply = connection.getresponse()
        try:
            reply.read()
        except http.client.IncompleteRead:
            pass
        return reply.status
    finally:
        connection.close()


def samples_of(port):
    """The samples of the metrics, by their names with labels."""
    metrics = get(port, "/metrics")[2]
    promtool("metrics", given=metrics)
    return {name: int(number) for name, number in (line.rsplit(" ", 1) for line in metrics.splitlines() if not line.startswith("#") and "build" not in line)}


def wait_for(port, name, number):
    """The samples, once one of them has this number, or after ten seconds."""
    for _ in range(100):
        samples = samples_of(port)
        if samples.get(name) == number:
            break
        time.sleep(0.1)
    return samples


def messages():
    """The messages of the load, in turns."""
    check, desk = "/service/update2/json", "POST"
    kinds = [
        (OFFERS + INTERNALS, (desk, check, ask("demo", "1.0"))),
        (NOUPDATES, (desk, check, ask("demo", "2.0"))),
        (UNKNOWNS, (desk, check, ask('none",cohort="x', "1.0"))),
        (SECONDS, (desk, check, ask("second", "1.0"))),
        (MALFORMED, (desk, check, b"no request")),
        (NOWHERE, ("GET", "/favicon.ico", None)),
        (LOST, ("GET", "/p/demo-2.0.bin", None)),
        (FOUND, ("GET", "/p/demo-1.0.bin", None)),
    ]
    return [message for turn in range(max(many for many, _ in kinds)) for many, message in kinds if turn < many]


def check_counts(port):
    """What must be counted of the load."""
    replies = OFFERS + INTERNALS + NOUPDATES + UNKNOWNS + SECONDS + LOST + FOUND
    samples = wait_for(port, 'omaha_http_requests_total{code="200"}', replies)
    wanted = {f'omaha_http_requests_total{{code="{code}"}}': 0 for code in (403, 405, 409, 411, 413, 422, 431, 500, 501, 503)}
    wanted |= {
        'omaha_http_requests_total{code="200"}': replies,
        'omaha_http_requests_total{code="400"}': MALFORMED,
        'omaha_http_requests_total{code="404"}': NOWHERE,
        'omaha_update_checks_total{app="demo",cohort="stable",outcome="offered"}': OFFERS,
        'omaha_update_checks_total{app="demo",cohort="stable",outcome="noupdate"}': NOUPDATES,
        'omaha_update_checks_total{app="demo",cohort="stable",outcome="error_internal"}': INTERNALS,
        'omaha_update_checks_total{app="second",cohort="all",outcome="offered"}': 0,
        'omaha_update_checks_total{app="second",cohort="all",outcome="noupdate"}': SECONDS,
        'omaha_update_checks_total{app="second",cohort="all",outcome="error_internal"}': 0,
        'omaha_update_checks_total{outcome="unknown_app"}': UNKNOWNS,
        "omaha_uncounted_update_checks_total": 0,
        'omaha_offered_bytes_total{mirror="m0",kind="full"}': OFFERS * len(PACKAGE),
        'omaha_offered_bytes_total{mirror="m0",kind="differential"}': 0,
        'omaha_mirror_granted_bytes{mirror="m0"}': OFFERS * len(PACKAGE),
        "omaha_package_failures_total": LOST,
    }
    counts = re.compile(r"omaha_(http|update|uncounted|offered|package)|omaha_mirror_granted")
    expect("counts of the load", {name: number for name, number in samples.items() if counts.match(name)}, wanted)
    status = get(port, "/status")[2]
    expect("replies of the status", f"\nreplies {replies + MALFORMED + NOWHERE}\n" in status, True)


def check_connections(listen, port):
    """Two connections that had a reply, and one that sent a part of a message."""
    idle = [http.client.HTTPConnection("127.0.0.1", listen, timeout=20) for _ in range(2)]
    for connection in idle:
        connection.request("GET", "/none")
        connection.getresponse().read()
    with socket.create_connection(("127.0.0.1", listen)) as active:
        active.sendall(b"POST /serv")
        samples = wait_for(port, 'omaha_connections{state="active"}', 1)
        expect("active", samples['omaha_connections{state="active"}'], 1)
        expect("idle", samples['omaha_connections{state="idle"}'], 2)
    for connection in idle:
        connection.close()
    wait_for(port, 'omaha_connections{state="active"}', 0)
    samples = wait_for(port, 'omaha_connections{state="idle"}', 0)
    expect("open in the end", sum(number for name, number in samples.items() if "omaha_connections" in name), 0)


def check_load(program, folder):
    """A server of several workers that gets a known load from many clients at once."""
    profile = pathlib.Path(folder, "loaded.toml")
    profile.write_text(LOADED, encoding="utf-8")
    pathlib.Path(folder, "demo-1.0.bin").write_bytes(PACKAGE)
    listen, port = free_port(), free_port()
    words = ["serve", "--profile", profile, "--packages", folder, "--listen", f"127.0.0.1:{listen}", "--operator", f"127.0.0.1:{port}", "--workers", WORKERS]
    with subprocess.Popen([program, *map(str, words)], stdout=subprocess.PIPE) as server:
        try:
            expect("first line", server.stdout.readline(), b"ready\n")
            get(port, "/operate", PUBLISHED.encode())
            with concurrent.futures.ThreadPoolExecutor(16) as clients:
                statuses = list(clients.map(lambda it: send(listen, it), messages()))
            expect("malformed messages", statuses.count(400), MALFORMED)
            check_counts(port)
            check_connections(listen, port)
        finally:
            server.kill()


def main():
    """Runs all tests."""
    parser = argparse.ArgumentParser(description=__doc__.splitlines()[0])
    parser.add_argument("--program", default=str(TOP / "crates" / "omaha" / "out" / "omaha"))
    given = parser.parse_args().program
    promtool("config", TOP / "examples" / "prometheus.yml")
    promtool("rules", TOP / "examples" / "alerts.yml")
    with tempfile.TemporaryDirectory() as folder:
        started = time.time()
        check_server(given, folder)
        check_load(given, folder)
    for failure in failures:
        print(failure)
    print(f"{len(failures)} of the pages' tests failed, in {time.time() - started:.1f} s")
    sys.exit(bool(failures))


if __name__ == "__main__":
    main()
