#!/usr/bin/env python3
"""Has Prometheus scrape a server over the loopback: tests/scrape.py [--program PATH]

`make metrics` runs it, after `make install`. Prometheus gets `examples/prometheus.yml` with the server as its target and a
scrape each second, and `examples/alerts.yml`. Then it has the server as up, the edition and the counts that the server
shows, and each alert without an error; the alert on a server that is down fires once the server was stopped. It needs
Debian's package `prometheus`; without it nothing is tested, and a line says so. Prints each test that fails, and exits
with 1 then.
"""

import argparse
import json
import pathlib
import re
import shutil
import subprocess
import sys
import tempfile
import time
import urllib.parse
import urllib.request

import metrics

TOP = pathlib.Path(__file__).resolve().parent.parent


def configure(folder, target):
    """The configuration of the examples, for one server that is scraped each second."""
    text = (TOP / "examples" / "prometheus.yml").read_text(encoding="utf-8")
    text = re.sub(r"scrape_interval: \S+", "scrape_interval: 1s\n  evaluation_interval: 1s", text)
    text = re.sub(r"targets: \[.*\]", f'targets: ["127.0.0.1:{target}"]', text)
    file = pathlib.Path(folder, "prometheus.yml")
    file.write_text(text, encoding="utf-8")
    rules = (TOP / "examples" / "alerts.yml").read_text(encoding="utf-8")
    pathlib.Path(folder, "alerts.yml").write_text(re.sub(r"for: \S+", "for: 1s", rules), encoding="utf-8")
    return file


def ask(port, path):
    """What Prometheus replies to a query, or None."""
    try:
        with urllib.request.urlopen(f"http://127.0.0.1:{port}/api/v1/{path}", timeout=5) as reply:
            return json.load(reply)["data"]
    except (OSError, ValueError):
        return None


def value(port, query):
    """The only value that a query has, or None."""
    data = ask(port, "query?" + urllib.parse.urlencode({"query": query}))
    found = data["result"] if data else []
    return found[0]["value"][1] if len(found) == 1 else None


def await_value(port, query, wanted):
    """Asks until a query has a value, for half a minute."""
    for _ in range(60):
        if value(port, query) == wanted:
            return
        time.sleep(0.5)
    metrics.expect(query, value(port, query), wanted)


def check(server, operator, port):
    """A server that is scraped, then stopped."""
    await_value(port, 'up{job="omaha"}', "1")
    await_value(port, "omaha_edition", "2")
    await_value(port, 'omaha_publishes_total{result="published"}', "1")
    await_value(port, 'omaha_mirror_budget_bytes{mirror="m0"}', "2000")
    shown = metrics.get(operator, "/metrics")[2]
    for family in sorted(set(re.findall(r"^(\w+)", re.sub(r"(?m)^#.*\n", "", shown)))):
        metrics.expect(family, value(port, f"count(count by (__name__) ({family}))"), "1")
    groups = ask(port, "rules")["groups"]
    metrics.expect("alerts", {rule["health"] for group in groups for rule in group["rules"]}, {"ok"})
    metrics.get(operator, "/operate", b"stop")
    metrics.expect("status of the server", server.wait(timeout=20), 0)
    await_value(port, 'ALERTS{alertname="OmahaDown",alertstate="firing"}', "1")


def scrape(program, folder):
    """A server with an edition more than its profile's and a raised budget, and Prometheus beside it."""
    profile = pathlib.Path(folder, "profile.toml")
    profile.write_text(metrics.PROFILE, encoding="utf-8")
    operator, port = metrics.free_port(), metrics.free_port()
    words = ["serve", "--profile", profile, "--packages", folder, "--listen", "127.0.0.1:0", "--operator", f"127.0.0.1:{operator}"]
    config = configure(folder, operator)
    data = pathlib.Path(folder, "data")
    scraper = ["prometheus", f"--config.file={config}", f"--web.listen-address=127.0.0.1:{port}", f"--storage.tsdb.path={data}"]
    with subprocess.Popen([program, *map(str, words)], stdout=subprocess.PIPE) as server:
        metrics.expect("first line", server.stdout.readline(), b"ready\n")
        for body in (metrics.PUBLISHED, "raise m0 2000"):
            metrics.get(operator, "/operate", body.encode())
        with subprocess.Popen(scraper, stdout=subprocess.DEVNULL, stderr=subprocess.DEVNULL) as prometheus:
            try:
                check(server, operator, port)
            finally:
                prometheus.kill()
                server.kill()


def main():
    """Runs all tests."""
    parser = argparse.ArgumentParser(description=__doc__.splitlines()[0])
    parser.add_argument("--program", default=str(TOP / "crates" / "omaha" / "out" / "omaha"))
    given = parser.parse_args().program
    if shutil.which("prometheus") is None:
        print("(no prometheus: it scrapes nothing)")
        return
    with tempfile.TemporaryDirectory() as folder:
        started = time.time()
        scrape(given, folder)
    for failure in metrics.failures:
        print(failure)
    print(f"{len(metrics.failures)} of the scrape's tests failed, in {time.time() - started:.1f} s")
    sys.exit(bool(metrics.failures))


if __name__ == "__main__":
    main()
