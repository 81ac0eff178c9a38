#!/usr/bin/env python3
"""Other programs ask `brokerd serve --status ADDR`, by the files of examples/.

    python3 tests/served/scraped.py PROGRAM

Debian's Prometheus scrapes it, and takes each expression of the dashboard and of the alerts; `promtool` checks metrics,
rules, their tests and the configuration; curl asks; HAProxy's `httpchk` finds it well, and not while it stops; hvac
reads its health. The dashboard and the alerts name metrics that there are, and docs/MONITORING.md has them all. What is
not installed is not tried, and told. All cases run at once, each with a broker of its own, in some ten seconds. The
last line is 'N passed, M failed'.
"""

import contextlib
import json
import os
import re
import shutil
import subprocess
import sys
import time
import urllib.error
import urllib.parse
import urllib.request
from pathlib import Path

from broker import connect, free_port
from cases import expect
from watched import Watched, asks, counted, in_folder, metric_of, side_by_side

TOP = Path(__file__).resolve().parent.parent.parent
EXAMPLES = TOP / "examples"
METRIC = re.compile(r"\b((?:dehluvima|process)_[a-z_]+)")
WHERE = f"{os.environ['PATH']}:/usr/sbin"  # Debian has some where others than root may not look


def by_curl(program):
    """As people ask."""
    with Watched(program) as broker:
        for words, wanted in ((["/health"], "200"), (["-I", "/v1/sys/health"], "200"), (["/metrics"], "200"),
                              (["/"], "200"), (["-X", "POST", "/health"], "405"), (["-d", "{}", "/metrics"], "405"),
                              (["/v1/secret/data/app"], "404"), (["--http1.0", "/health"], "200"),
                              (["-H", "X: " + "x" * 3000, "/health"], "431")):
            done = subprocess.run(["curl", "-s", "-m", "10", "-o", os.devnull, "-w", "%{http_code}", *words[:-1],
                                   broker.url(words[-1])], capture_output=True, text=True, check=False)
            expect((done.returncode, done.stdout) == (0, wanted), f"curl {words}: {done.returncode}, {done.stdout}")
    return "nine calls"


def by_promtool(program):
    """The metrics, the rules, their tests and the configuration are well-formed."""
    with Watched(program) as broker:
        counted(broker)
        text = broker.read("/metrics")[2]
    for words, given in ((["check", "metrics"], text), (["check", "rules", EXAMPLES / "dehluvima-alerts.yml"], None),
                         (["test", "rules", TOP / "tests/served/alerts.yml"], None),
                         (["check", "config", EXAMPLES / "prometheus.yml"], None)):
        done = subprocess.run(["promtool", *words], input=given, capture_output=True, check=False)
        told = (done.stdout + done.stderr).decode()
        expect(done.returncode == 0, f"promtool {words[:2]}: {told[-500:]}")
        expect(words[1] != "metrics" or not told, f"promtool check metrics: {told}")
    return "metrics, rules, tests of rules, configuration"


def expressions():
    """The expressions of the dashboard and of the alerts."""
    dashboard = json.loads((EXAMPLES / "dehluvima-dashboard.json").read_text(encoding="utf-8"))
    found = [target["expr"] for panel in dashboard["panels"] for target in panel["targets"]]
    found += [it["expr"] for it in dashboard["annotations"]["list"] if "expr" in it]
    alerts = (EXAMPLES / "dehluvima-alerts.yml").read_text(encoding="utf-8")
    for text in re.findall(r"^        expr: (?:>-\n((?: {10}.*\n)+)|(.*))", alerts, re.MULTILINE):
        found.append(" ".join("".join(text).split()))
    return [text.replace("$__rate_interval", "1m").replace("$instance", ".*") for text in found]


@in_folder
def names(program, folder):
    """The dashboard and the alerts ask for metrics that there are, and the page MONITORING has them all."""
    with Watched(program, folder=folder) as broker:
        counted(broker)  # from the first request on the broker's clock is known
        types = broker.metrics()[1]
    asked = {metric_of(name) for text in expressions() for name in METRIC.findall(text)}
    expect(asked <= set(types), f"there are no {sorted(asked - set(types))}")
    page = (TOP / "docs/MONITORING.md").read_text(encoding="utf-8")
    rows = dict(re.findall(r"^\| `([a-z_]+)[`{].*?\| (gauge|counter|histogram) \|", page, re.MULTILINE))
    expect(rows == types, f"docs/MONITORING.md: {sorted(set(rows.items()) ^ set(types.items()))}")
    return f"{len(types)} metrics, {len(expressions())} expressions"


def waits_for(what, function, patience=20.0):
    """The first answer of a function that is something."""
    until = time.monotonic() + patience
    while time.monotonic() < until:
        with contextlib.suppress(OSError, ValueError, KeyError):
            found = function()
            if found:
                return found
        time.sleep(0.1)
    raise AssertionError(f"{what}: not in {patience:.0f} s")


@in_folder
def by_prometheus(program, folder):
    """Debian's Prometheus scrapes it by the configuration of the examples, and takes each expression."""
    with Watched(program, folder=folder) as broker:
        counted(broker)
        text = (EXAMPLES / "prometheus.yml").read_text(encoding="utf-8")
        expect(text.count("127.0.0.1:8201") == 2 and "scrape_interval: 15s" in text, "prometheus.yml has other texts")
        text = text.replace("127.0.0.1:8201", f"127.0.0.1:{broker.status_port}").replace("15s", "1s")
        (folder / "prometheus.yml").write_text(text, encoding="utf-8")
        shutil.copy(EXAMPLES / "dehluvima-alerts.yml", folder)
        port = free_port()
        api = f"http://127.0.0.1:{port}/api/v1"

        def asked(path, **query):
            with urllib.request.urlopen(f"{api}/{path}?{urllib.parse.urlencode(query)}", timeout=10) as found:
                return json.loads(found.read())["data"]

        def value(text):
            return {tuple(sorted(it["metric"].items())): float(it["value"][1])
                    for it in asked("query", query=text)["result"]}

        with open(folder / "prometheus.log", "wb") as log:
            running = subprocess.Popen(
                ["prometheus", f"--config.file={folder}/prometheus.yml", f"--storage.tsdb.path={folder}/data",
                 f"--web.listen-address=127.0.0.1:{port}"], stdin=subprocess.DEVNULL, stdout=log, stderr=log)
        try:
            waits_for("a scrape", lambda: 1.0 in value('up{job="dehluvima"}').values())
            total = sum(value("sum(dehluvima_requests_total)").values())
            expect(total == len([*asks("")]), f"Prometheus has {total} requests")
            target = asked("targets")["activeTargets"][0]
            expect((target["health"], target["lastError"]) == ("up", ""), f"the target is {target}")
            for text in expressions():
                try:
                    value(text)
                except urllib.error.HTTPError as error:
                    raise AssertionError(f"{text}: {error.read().decode()}") from None
            broker.process.kill()
            waits_for("the end", lambda: 0.0 in value('up{job="dehluvima"}').values())
        finally:
            running.kill()
            running.wait()
    return f"a scrape of {total:.0f} requests, {len(expressions())} expressions"


HAPROXY = """
defaults
    mode http
    timeout connect 1s
    timeout client 5s
    timeout server 5s
listen stats
    bind 127.0.0.1:{outside}
    stats enable
    stats uri /
backend health
    option httpchk GET /health
    server broker 127.0.0.1:{inside} check port {status} inter 100ms fall 1 rise 1
backend main
    option httpchk GET /
    http-check expect status 404
    server broker 127.0.0.1:{inside} check inter 100ms fall 1 rise 1
"""


@in_folder
def by_haproxy(program, folder):
    """HAProxy's `httpchk`, of the status address and of the main one: up, then down while it stops."""
    with Watched(program) as broker:
        port = free_port()
        text = HAPROXY.format(outside=port, inside=broker.port, status=broker.status_port)
        (folder / "haproxy.cfg").write_text(text, encoding="ascii")

        def checks():
            with urllib.request.urlopen(f"http://127.0.0.1:{port}/;csv", timeout=5) as found:
                lines = [line.split(",") for line in found.read().decode().lstrip("# ").splitlines()]
            places = [lines[0].index(name) for name in ("status", "check_status", "check_code")]
            return {line[0]: tuple(line[place].removeprefix("* ") for place in places)
                    for line in lines if line[1:2] == ["broker"]}

        with open(folder / "haproxy.log", "wb") as log:
            running = subprocess.Popen([shutil.which("haproxy", path=WHERE), "-db", "-f", folder / "haproxy.cfg"],
                                       stdin=subprocess.DEVNULL, stdout=log, stderr=log)
        try:
            up = {"health": ("UP", "L7OK", "200"), "main": ("UP", "L7OK", "404")}
            waits_for(f"checks {up}", lambda: checks() == up)
            with connect(broker.port) as connection:
                connection.sendall(b"GET /v1/ HTTP/1.1\r\n")
                time.sleep(0.2)
                broker.stop()
                waits_for("a 503", lambda: checks()["health"] == ("DOWN", "L7STS", "503"), 4.0)
        finally:
            running.kill()
            running.wait()
    return "up, and down while it stops"


def python_with_hvac():
    """A Python that has hvac, if there is one."""
    for python in ("python3", "/usr/bin/python3"):
        if subprocess.run([python, "-c", "import hvac"], capture_output=True, check=False).returncode == 0:
            return python
    return None


def by_hvac(program):
    """`read_health_status` of hvac, by GET and HEAD."""
    code = ("import hvac; client = hvac.Client(url=__import__('sys').argv[1]); "
            "found = client.sys.read_health_status(method='GET'); head = client.sys.read_health_status(); "
            "print(found['initialized'], found['sealed'], found['standby'], head.status_code)")
    with Watched(program) as broker:
        done = subprocess.run([python_with_hvac(), "-c", code, broker.url("")], capture_output=True, text=True,
                              check=False)
    expect(done.stdout.split() == ["True", "False", "False", "200"], f"{done.stdout} {done.stderr[-300:]}")
    return "GET and HEAD"


TOOLS = {by_curl: "curl", by_promtool: "promtool", by_prometheus: "prometheus", by_haproxy: "haproxy"}


def main():
    cases = [names]
    for case, tool in TOOLS.items():
        if shutil.which(tool, path=WHERE):
            cases.append(case)
        else:
            print(f"scraped: {tool}: not installed, not tried")
    if python_with_hvac():
        cases.append(by_hvac)
    else:
        print("scraped: hvac: not installed, not tried")
    return side_by_side("scraped", cases, sys.argv[1])


if __name__ == "__main__":
    sys.exit(main())
