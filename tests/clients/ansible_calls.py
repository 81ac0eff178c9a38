#!/usr/bin/env python3
"""Modules and lookups of Ansible's collection community.hashi_vault, against a running broker.

    python3 tests/clients/ansible_calls.py PORT ROOT_TOKEN [HOSTS]

They are the tasks of one playbook, which `ansible-playbook` runs on this machine, as a user would: VAULT_ADDR and
VAULT_TOKEN name the broker. There are so many hosts, or one, which are all this machine, each with a folder of its own;
each task runs on all of them at once. With one host it takes some 40 seconds. If Ansible, the collection or hvac is not
installed, it says so, and nothing is tried. The last line is 'N passed, M failed'.
"""

import json
import os
import shutil
import subprocess
import sys
import tempfile
from pathlib import Path

COLLECTION = "community.hashi_vault"
FOLDER = "{{ folder }}"  # of a host
SECRET = f"{FOLDER}/app"
POLICY = '{"path":{"secret/data/ansible/*":{"capabilities":["read"]}}}'
TASKS = []


def task(does, name=None):
    """A task of the playbook. The function says of its result whether it is right. What it registers can be named."""
    def add(is_right):
        words = {"name": is_right.__name__, **does, "ignore_errors": True}
        TASKS.append(({**words, "register": name} if name else words, is_right))
        return is_right
    return add


def module(name, **arguments):
    """What runs a module of the collection."""
    return {f"{COLLECTION}.{name}": arguments}


def lookup(name, words):
    """What shows the result of a lookup of the collection, with the words of its call."""
    return {"ansible.builtin.debug": {"msg": f"{{{{ lookup('{COLLECTION}.{name}', {words}) }}}}"}}


def said(result):
    """All that the result says of a failure."""
    return " ".join(str(result[name]) for name in ("msg", "exception", "module_stderr") if name in result)


# Versioned secrets.

@task(module("vault_kv2_write", path=SECRET, data={"user": "app"}))
def a_secret_is_written(result):
    return result["changed"] and result["raw"]["data"]["version"] == 1


@task(module("vault_kv2_write", path=SECRET, data={"user": "app"}, read_before_write=True))
def the_same_secret_is_not_written_again(result):
    return not result["changed"]


@task(module("vault_kv2_write", path=SECRET, data={"user": "new"}, cas=1))
def a_secret_is_written_with_check_and_set(result):
    return result["changed"] and result["raw"]["data"]["version"] == 2


@task(module("vault_kv2_write", path=SECRET, data={"user": "late"}, cas=1))
def a_write_that_comes_late_is_refused(result):
    return result["failed"] and "check-and-set parameter did not match" in said(result)


@task(module("vault_kv2_get", path=SECRET))
def a_secret_is_read(result):
    return result["secret"] == {"user": "new"} and result["metadata"]["version"] == 2


@task(module("vault_kv2_get", path=SECRET, version=1))
def a_version_is_read(result):
    return result["secret"] == {"user": "app"} and result["metadata"]["version"] == 1


@task(lookup("vault_kv2_get", "folder ~ '/app', version=1"))
def a_version_is_looked_up(result):
    return result["msg"]["secret"] == {"user": "app"}


@task(lookup("hashi_vault", "'secret=secret/data/' ~ folder ~ '/app:user'"))
def a_member_of_a_secret_is_looked_up(result):
    return result["msg"] == "new"


@task(module("vault_write", path=f"secret/metadata/{FOLDER}/app", data={"custom_metadata": {"team": "db"}}))
def custom_metadata_are_written(result):
    return result["changed"]


@task(module("vault_kv2_get", path=SECRET))
def a_secret_is_read_with_custom_metadata(result):
    return result["secret"] == {"user": "new"} and result["metadata"]["custom_metadata"] == {"team": "db"}


@task(module("vault_kv2_delete", path=SECRET, versions=[1]))
def a_version_is_deleted(result):
    return result["changed"]


@task(module("vault_kv2_get", path=SECRET, version=1))
def a_deleted_version_is_not_read(result):
    return result["failed"] and "missing path" in result["msg"]


@task(module("vault_kv2_delete", path=SECRET))
def the_last_version_is_deleted(result):
    return result["changed"]


@task(module("vault_kv2_get", path=SECRET))
def a_deleted_secret_is_not_read(result):
    return result["failed"] and "missing path" in result["msg"]


# Paths.

@task(module("vault_write", path="cubbyhole/ansible", data={"user": "app"}))
def a_path_is_written(result):
    return result["changed"]


@task(module("vault_read", path="cubbyhole/ansible"))
def a_path_is_read(result):
    return result["data"]["data"] == {"user": "app"}


@task(lookup("vault_read", "'cubbyhole/ansible'"))
def a_path_is_looked_up(result):
    return result["msg"]["data"] == {"user": "app"}


@task(lookup("vault_write", "'cubbyhole/ansible/looked-up', data={'user': 'app'}"))
def a_path_is_written_by_a_lookup(result):
    return not result["failed"]


@task(module("vault_kv1_get", engine_mount_point="cubbyhole", path="ansible/looked-up"))
def a_cubbyhole_is_read_as_a_secret_of_version_1(result):
    return result["secret"] == {"user": "app"}


@task(lookup("vault_kv1_get", "'ansible', engine_mount_point='cubbyhole'"))
def a_cubbyhole_is_looked_up_as_a_secret_of_version_1(result):
    return result["msg"]["secret"] == {"user": "app"}


@task(module("vault_read", path=f"secret/metadata/{FOLDER}?list=true"))
def a_folder_is_listed_by_a_read(result):
    return result["data"]["data"]["keys"] == ["app"]


@task(lookup("vault_read", "'cubbyhole?list=true'"))
def a_folder_is_listed_by_a_lookup(result):
    return {"ansible", "ansible/"} <= set(result["msg"]["data"]["keys"])


@task(module("vault_write", path="sys/policies/acl/ansible", data={"policy": POLICY}))
def a_policy_is_written(result):
    return result["changed"]


@task(module("vault_read", path="secret/data/ansible/none"))
def what_is_not_there_is_not_read(result):
    return result["failed"]


@task(module("vault_read", path="cubbyhole/ansible", token="hvs.00000000-0000-0000-0000-000000000000"))
def a_stranger_is_refused(result):
    return result["failed"] and "Forbidden" in result["msg"]


# Tokens.

@task(module("vault_token_create", policies=["ansible"], ttl="1h", meta={"team": "db"}), "made")
def a_token_is_created(result):
    auth = result["login"]["auth"]
    return auth["policies"] == ["ansible", "default"] and auth["metadata"] == {"team": "db"}


@task(module("vault_token_create", policies=["ansible"], orphan=True, num_uses=3))
def an_orphan_is_created(result):
    return result["login"]["auth"]["orphan"] and result["login"]["auth"]["num_uses"] == 3


@task(module("vault_token_create", policies=["default"], period="1h", ttl="1m"), "periodic")
def a_periodic_token_is_created(result):
    return result["login"]["auth"]["lease_duration"] == 3600


@task(module("vault_write", path="auth/token/renew-self", data={"increment": 60},
             token="{{ periodic.login.auth.client_token }}"))
def a_periodic_token_renews_itself(result):
    return result["data"]["auth"]["lease_duration"] == 3600


@task(module("vault_read", path="auth/token/lookup-self", token="{{ periodic.login.auth.client_token }}"))
def a_periodic_token_looks_itself_up(result):
    data = result["data"]["data"]
    return data["period"] == 3600 and data["creation_ttl"] == 3600


@task(lookup("vault_token_create", "policies=['default']"))
def a_token_is_created_by_a_lookup(result):
    return result["msg"]["auth"]["policies"] == ["default"]


@task(module("vault_login", auth_method="token", token="{{ made.login.auth.client_token }}"))
def a_token_logs_in(result):
    return result["login"]["auth"]["policies"] == ["ansible", "default"]


@task(lookup("vault_login", "auth_method='token'"))
def a_token_logs_in_by_a_lookup(result):
    return result["msg"]["auth"]["policies"] == ["root"]


@task({"ansible.builtin.debug": {"msg": f"{{{{ made | {COLLECTION}.vault_login_token }}}}"}})
def a_filter_finds_the_token(result):
    return result["msg"].startswith("hvs.")


@task(module("vault_read", path="secret/data/ansible/none", token="{{ made.login.auth.client_token }}"))
def the_policy_of_the_token_allows_a_read(result):
    return result["failed"] and "Forbidden" not in result["msg"]


@task(module("vault_token_create", policies=["default"], wrap_ttl="5m"), "wrapped")
def a_token_is_wrapped(result):
    return result["login"]["wrap_info"]["ttl"] == 300


@task(module("vault_write", path="sys/wrapping/unwrap", data={"token": "{{ wrapped.login.wrap_info.token }}"}))
def a_token_is_unwrapped(result):
    return result["data"]["auth"]["policies"] == ["default"]


@task(module("vault_write", path="sys/wrapping/unwrap", data={"token": "{{ wrapped.login.wrap_info.token }}"}))
def a_token_is_unwrapped_once(result):
    return result["failed"] and "wrapping token is not valid" in said(result)


@task(module("vault_write", path="sys/wrapping/wrap", data={"user": "app"}, wrap_ttl="5m"))
def a_body_is_wrapped(result):
    return result["data"]["wrap_info"]["creation_path"] == "sys/wrapping/wrap"


@task(module("vault_write", path="auth/token/revoke", data={"token": "{{ made.login.auth.client_token }}"}))
def a_token_is_revoked(result):
    return result["changed"]


@task(module("vault_login", auth_method="token", token="{{ made.login.auth.client_token }}"))
def a_revoked_token_does_not_log_in(result):
    return result["failed"] and "Invalid Vault Token" in said(result)


# What a broker does not serve.

@task(module("vault_list", path=f"secret/metadata/{FOLDER}"))
def a_list_with_a_capital_letter_is_a_read(result):
    """hvac sends `list=True`."""
    return result["failed"] and "doesn't seem to exist" in said(result)


@task(lookup("vault_list", "'cubbyhole'"))
def a_list_by_a_lookup_is_a_read_too(result):
    return result["failed"] and "unsupported operation" in said(result)


@task(module("vault_token_create", policies=["default"], type="batch"))
def no_batch_token_is_created(result):
    return result["failed"] and "invalid field: type" in said(result)


@task(module("vault_token_create", role_name="app"))
def no_token_of_a_role_is_created(result):
    return result["failed"] and "InvalidPath" in said(result)


@task(module("vault_pki_generate_certificate", role_name="app", common_name="app.example"))
def no_certificate_is_issued(result):
    return result["failed"] and "InvalidPath" in said(result)


@task(module("vault_login", auth_method="userpass", username="app", password="app"))
def no_password_logs_in(result):
    return result["failed"] and "Forbidden: permission denied" in said(result)


def is_installed():
    """Whether the Python of `ansible-playbook` has what the tasks need."""
    program = shutil.which("ansible-playbook")
    if program is None:
        return False
    first = Path(program).read_text(encoding="utf-8").splitlines()[0]
    python = first.removeprefix("#!").split()
    test = f"import hvac, ansible_collections.{COLLECTION}"
    return subprocess.run([*python, "-c", test], stderr=subprocess.DEVNULL, check=False).returncode == 0


def ran(port, token, hosts):
    """What `ansible-playbook` says of each task."""
    play = {"hosts": "all", "connection": "local", "gather_facts": False,
            "vars": {"ansible_python_interpreter": "{{ ansible_playbook_python }}",
                     "folder": f"ansible/{os.getpid()}/{{{{ inventory_hostname }}}}"},
            "tasks": [words for words, _ in TASKS]}
    with tempfile.TemporaryDirectory() as folder:
        file = Path(folder) / "playbook.yml"
        file.write_text(json.dumps([play]), encoding="utf-8")
        settings = {"VAULT_ADDR": f"http://127.0.0.1:{port}", "VAULT_TOKEN": token, "HOME": folder,
                    "LC_ALL": "C.UTF-8", "ANSIBLE_STDOUT_CALLBACK": "ansible.posix.json",
                    "ANSIBLE_DISPLAY_TRACEBACK": "always"}
        done = subprocess.run(["ansible-playbook", "-i", ",".join([*hosts, ""]), "--forks", str(len(hosts)), str(file)],
                              env={**os.environ, **settings},
                              stdout=subprocess.PIPE, stderr=subprocess.PIPE, text=True, check=False)
    try:
        return json.loads(done.stdout)["plays"][0]["tasks"]
    except (ValueError, LookupError):
        raise SystemExit(f"ansible-playbook said: {done.stdout}{done.stderr}") from None


def mistake_of(result, is_right):
    """What is wrong with the result of a task."""
    result.setdefault("failed", False)
    try:
        return None if is_right(result) else json.dumps(result)[:500]
    except (LookupError, TypeError) as error:
        return f"{type(error).__name__}: {error}: {json.dumps(result)[:500]}"


def main():
    if not is_installed():
        print("Ansible with community.hashi_vault and hvac is not installed: its calls are skipped")
        print("0 passed, 0 failed")
        return 0
    hosts = [f"host{number}" for number in range(int(sys.argv[3]) if len(sys.argv) > 3 else 1)]
    found = ran(sys.argv[1], sys.argv[2], hosts)
    failed, count = 0, len(TASKS) * len(hosts)
    for place, (words, is_right) in enumerate(TASKS):
        for host in hosts:
            told = found[place]["hosts"].get(host) if place < len(found) else None
            mistake = mistake_of(told, is_right) if told else "it was not run"
            failed += mistake is not None
            if mistake:
                print(f"ansible, {words['name']}, {host}: {mistake}")
    print(f"{count - failed} passed, {failed} failed")
    return 1 if failed else 0


if __name__ == "__main__":
    sys.exit(main())
