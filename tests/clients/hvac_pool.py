#!/usr/bin/env python3
"""Calls of Python's hvac with a pool of connections, from eight threads at once, against a running broker.

    python3 tests/clients/hvac_pool.py PORT ROOT_TOKEN

One client object serves all threads, by a session of `requests` that has a pool of eight connections. If hvac is not
installed, it says so, and nothing is tried. The last line is 'N passed, M failed'.
"""

import concurrent.futures
import os
import sys
import threading

try:
    import hvac
    import hvac.exceptions
    import requests
    import requests.adapters
except ImportError:
    hvac = None

FOLDER = f"pool/{os.getpid()}"  # of secrets
THREADS = 8
TIMES = 25


def expect(condition, what):
    if not condition:
        raise AssertionError(what)


def own_secrets(client, thread):
    """Each thread writes versions of a secret of its own, and reads each one."""
    kv = client.secrets.kv.v2
    for number in range(1, TIMES + 1):
        made = kv.create_or_update_secret(path=f"{FOLDER}/{thread}", secret={"number": number})
        expect(made["data"]["version"] == number, f"version {made['data']['version']} is made, not {number}")
        found = kv.read_secret_version(path=f"{FOLDER}/{thread}", raise_on_deleted_version=True) if is_new(kv) \
            else kv.read_secret_version(path=f"{FOLDER}/{thread}")
        expect(found["data"]["data"] == {"number": number}, f"{found['data']['data']} is read, not {number}")
    return TIMES * 2


def is_new(kv):
    """Whether hvac is one that asks what to do with deleted versions."""
    return "raise_on_deleted_version" in kv.read_secret_version.__code__.co_varnames


def one_counter(client, _):
    """All threads count up one secret by check-and-set: none of what they add is lost."""
    kv, calls = client.secrets.kv.v2, 0
    for _ in range(TIMES):
        while True:
            calls += 2
            found = kv.read_secret_version(path=f"{FOLDER}/counter")["data"]
            version, number = found["metadata"]["version"], found["data"]["number"]
            try:
                kv.create_or_update_secret(path=f"{FOLDER}/counter", secret={"number": number + 1}, cas=version)
                break
            except hvac.exceptions.InvalidRequest:
                pass
    return calls


def one_response(client, _):
    """Each response that waits is handed out once, whoever asks for it: all threads ask for each of them."""
    opened = 0
    for token in WRAPPED:
        try:
            expect(client.sys.unwrap(token=token)["data"] == {"user": "app"}, "another response is handed out")
            opened += 1
        except hvac.exceptions.InvalidRequest:
            pass
    with LOCK:
        OPENED.append(opened)
    return len(WRAPPED)


WRAPPED, OPENED, LOCK = [], [], threading.Lock()


def own_tokens(client, thread):
    """Each thread makes tokens, which work until it revokes them, whatever the others revoke."""
    for _ in range(TIMES):
        made = client.auth.token.create(policies=["default"], meta={"thread": str(thread)})["auth"]
        found = client.auth.token.lookup(made["client_token"])["data"]
        expect(found["meta"] == {"thread": str(thread)}, f"the token of another thread is found: {found['meta']}")
        client.auth.token.revoke(made["client_token"])
        try:
            client.auth.token.lookup(made["client_token"])
            raise AssertionError("a revoked token is served")
        except hvac.exceptions.Forbidden:
            pass
    return TIMES * 4


def held(port):
    """How many connections to the port are open, which a process has accepted."""
    with open("/proc/net/tcp", encoding="ascii") as lines:
        found = [line.split() for line in lines]
    return sum(words[1].endswith(f":{port:04X}") and words[3] == "01" and words[9] != "0" for words in found[1:])


def at_once(client, call):
    """The call in all threads at once: how many calls of hvac they made."""
    with concurrent.futures.ThreadPoolExecutor(THREADS) as pool:
        return sum(pool.map(lambda thread: call(client, thread), range(THREADS)))


def run(port, token):
    """What was met."""
    session = requests.Session()
    session.mount("http://", requests.adapters.HTTPAdapter(pool_connections=1, pool_maxsize=THREADS))
    client = hvac.Client(url=f"http://127.0.0.1:{port}", token=token, session=session)
    before = held(port)
    calls = at_once(client, own_secrets)
    client.secrets.kv.v2.create_or_update_secret(path=f"{FOLDER}/counter", secret={"number": 0})
    calls += at_once(client, one_counter)
    counted = client.secrets.kv.v2.read_secret_version(path=f"{FOLDER}/counter")["data"]["data"]["number"]
    expect(counted == THREADS * TIMES, f"{counted} is counted, not {THREADS * TIMES}")
    client.write("cubbyhole/pool", user="app")
    WRAPPED.extend(client.read("cubbyhole/pool", wrap_ttl="1m")["wrap_info"]["token"] for _ in range(TIMES))
    calls += at_once(client, one_response)
    expect(sum(OPENED) == TIMES, f"{sum(OPENED)} of {TIMES} responses are handed out, by the threads {OPENED}")
    calls += at_once(client, own_tokens)
    connections = held(port) - before
    expect(connections >= THREADS // 2, f"{connections} connections of the pool are open")
    expect(calls >= 1500, f"{calls} calls only")
    return f"{calls} calls, {connections} connections"


def main():
    if hvac is None:
        print("hvac is not installed for this Python: its pool is skipped")
        print("0 passed, 0 failed")
        return 0
    try:
        print(f"hvac with a pool: {run(int(sys.argv[1]), sys.argv[2])}")
    except Exception as error:  # whatever the client raises
        print(f"hvac with a pool: {type(error).__name__}: {error}")
        print("0 passed, 1 failed")
        return 1
    print("1 passed, 0 failed")
    return 0


if __name__ == "__main__":
    sys.exit(main())
