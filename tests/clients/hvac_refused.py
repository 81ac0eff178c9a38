"""What a broker does not serve of Python's hvac: calls that do not work, each made once.

METHODS has the methods that do not work; `hvac_methods.py --table` prints them. The rows of a table in docs/CLIENTS.md
are calls of other methods, with arguments that do not work. Both have the call of a client, the request that hvac sends
for it, and the status of the reply. A call without brackets has some text for each argument that it needs. A word in
capitals of the path stands for any text. If the installed hvac has methods of these parts that are neither served nor
in a table, they are printed, and nothing fails.
"""

import ast
import inspect
import re
from pathlib import Path

PAGE = Path(__file__).resolve().parent.parent.parent / "docs" / "CLIENTS.md"
ROW = re.compile(r"^\| `([\w.]+)(\([^`]*\))?` \| `([A-Z]+) ([^`]+)` \| (\d+) \|", re.MULTILINE)
LINE = re.compile(r"^ +([\w.]+)(\(.*\))? ([A-Z]+) (\S+) (\d+)$", re.MULTILINE)
PARTS = ["auth.token", "secrets.kv.v2", "sys"]  # of a client
PRIVATE = ("_", "get_private_attr_name")  # beginnings of names

# The methods that do not work, by the reason.
METHODS = {
    "no token roles": """
        auth.token.create_or_update_role POST auth/token/roles/NAME 404
        auth.token.delete_role DELETE auth/token/roles/NAME 404
        auth.token.list_roles LIST auth/token/roles 404
        auth.token.read_role GET auth/token/roles/NAME 404
        """,
    "renew by the token": """
        auth.token.renew_accessor POST auth/token/renew-accessor 404
        """,
    "nothing is left to tidy": """
        auth.token.tidy POST auth/token/tidy 404
        """,
    "use `sys/policies/acl`": """
        get_policy GET sys/policy/NAME 404
        sys.create_or_update_policy PUT sys/policy/NAME 404
        sys.delete_policy DELETE sys/policy/NAME 404
        sys.list_policies GET sys/policy 404
        sys.read_policy GET sys/policy/NAME 404
        """,
    "ACL policies alone": """
        sys.create_or_update_egp_policy PUT sys/policies/egp/NAME 404
        sys.delete_egp_policy DELETE sys/policies/egp/NAME 404
        sys.list_egp_policies LIST sys/policies/egp 404
        sys.read_egp_policy GET sys/policies/egp/NAME 404
        sys.create_or_update_rgp_policy PUT sys/policies/rgp/NAME 404
        sys.delete_rgp_policy DELETE sys/policies/rgp/NAME 404
        sys.list_rgp_policies LIST sys/policies/rgp 404
        sys.read_rgp_policy GET sys/policies/rgp/NAME 404
        """,
    "no route returns capabilities": """
        sys.get_capabilities POST sys/capabilities-self 404
        """,
    "mounts do not move": """
        sys.move_backend POST sys/remount 404
        """,
    "no tuning; `secrets.kv.v2.read_configuration`": """
        sys.read_mount_configuration GET sys/mounts/NAME/tune 404
        """,
    "no tuning; `secrets.kv.v2.configure`": """
        sys.tune_mount_configuration POST sys/mounts/NAME/tune 404
        """,
    "leases are not listed": """
        sys.list_leases LIST sys/leases/lookup/PREFIX 404
        """,
    "`sys.revoke_prefix` always ends them": """
        sys.revoke_force PUT sys/leases/revoke-force/PREFIX 404
        """,
    "tokens are the only auth method": """
        sys.disable_auth_method DELETE sys/auth/NAME 404
        sys.enable_auth_method POST sys/auth/NAME 404
        sys.list_auth_methods GET sys/auth 404
        sys.read_auth_method_tuning GET sys/auth/NAME/tune 404
        sys.tune_auth_method POST sys/auth/NAME/tune 404
        """,
    "no audit devices": """
        sys.calculate_hash POST sys/audit-hash/NAME 404
        sys.disable_audit_device DELETE sys/audit/NAME 404
        sys.enable_audit_device POST sys/audit/NAME 404
        sys.list_enabled_audit_devices GET sys/audit 404
        """,
    "no HEAD": """
        sys.read_health_status HEAD sys/health 501
        """,
    "no such route; ask `auth.token.lookup_self`": """
        sys.read_health_status(method="GET") GET sys/health 404
        """,
    "one server, no replication": """
        sys.read_leader_status GET sys/leader 404
        sys.step_down PUT sys/step-down 404
        """,
    "the first start prints the root token": """
        sys.initialize PUT sys/init 404
        sys.is_initialized GET sys/init 404
        sys.read_init_status GET sys/init 404
        """,
    "no seal": """
        sys.is_sealed GET sys/seal-status 404
        sys.read_seal_status GET sys/seal-status 404
        sys.seal PUT sys/seal 404
        sys.submit_unseal_key(key="x") PUT sys/unseal 404
        sys.submit_unseal_keys PUT sys/unseal 404
        """,
    "no seal, so no keys that make a root token": """
        sys.cancel_root_generation DELETE sys/generate-root/attempt 404
        sys.generate_root PUT sys/generate-root/update 404
        sys.read_root_generation_progress GET sys/generate-root/attempt 404
        sys.start_root_token_generation PUT sys/generate-root/attempt 404
        """,
    "no encryption of the storage, so no keys": """
        sys.cancel_rekey DELETE sys/rekey/init 404
        sys.cancel_rekey_verify DELETE sys/rekey/verify 404
        sys.get_encryption_key_status GET sys/key-status 404
        sys.read_backup_keys GET sys/rekey/backup 404
        sys.read_rekey_progress GET sys/rekey/init 404
        sys.read_rekey_verify_progress GET sys/rekey/verify 404
        sys.rekey PUT sys/rekey/update 404
        sys.rekey_multi PUT sys/rekey/update 404
        sys.rekey_verify PUT sys/rekey/verify 404
        sys.rekey_verify_multi PUT sys/rekey/verify 404
        sys.rotate_encryption_key PUT sys/rotate 404
        sys.start_rekey PUT sys/rekey/init 404
        """,
    "no namespaces": """
        sys.create_namespace POST sys/namespaces/NAME 404
        sys.delete_namespace DELETE sys/namespaces/NAME 404
        sys.list_namespaces LIST sys/namespaces 404
        """,
    "no quotas": """
        sys.create_or_update_quota POST sys/quotas/rate-limit/NAME 404
        sys.delete_quota DELETE sys/quotas/rate-limit/NAME 404
        sys.list_quotas LIST sys/quotas/rate-limit 404
        sys.read_quota GET sys/quotas/rate-limit/NAME 404
        """,
    "the storage is one SQLite database": """
        sys.create_or_update_raft_auto_snapshot_config POST sys/storage/raft/snapshot-auto/config/NAME 404
        sys.delete_raft_auto_snapshot_config DELETE sys/storage/raft/snapshot-auto/config/NAME 404
        sys.force_restore_raft_snapshot POST sys/storage/raft/snapshot-force 404
        sys.join_raft_cluster POST sys/storage/raft/join 404
        sys.list_raft_auto_snapshot_configs LIST sys/storage/raft/snapshot-auto/config 404
        sys.read_raft_auto_snapshot_config GET sys/storage/raft/snapshot-auto/config/NAME 404
        sys.read_raft_auto_snapshot_status GET sys/storage/raft/snapshot-auto/status/NAME 404
        sys.read_raft_config GET sys/storage/raft/configuration 404
        sys.remove_raft_node POST sys/storage/raft/remove-peer 404
        sys.restore_raft_snapshot POST sys/storage/raft/snapshot 404
        sys.take_raft_snapshot GET sys/storage/raft/snapshot 404
        """,
}


def rows_of_methods():
    """The methods that do not work: a name, arguments if it needs other ones, verb, path, status, and the reason."""
    for why, lines in METHODS.items():
        for found in LINE.finditer(lines):
            yield (*found.groups(), why)


def table():
    """The methods that do not work, as a table of Markdown."""
    rows = [f"| `{name}{words or ''}` | `{verb} {path}` | {status} | {why} |"
            for name, words, verb, path, status, why in rows_of_methods()]
    return "\n".join(["| Method | Request | Status | Why |", "|---|---|---|---|", *rows])


def method_of(client, name):
    """The method of a client with this name, such as `sys.unwrap`, or None."""
    found = client
    for word in name.split("."):
        found = getattr(found, word, None)
    return found


def named(words):
    """The arguments of a call, such as `(name="app")`."""
    call = ast.parse(f"call{words}", mode="eval").body
    return {keyword.arg: ast.literal_eval(keyword.value) for keyword in call.keywords}


def needed(method):
    """Some text for each argument that a method needs."""
    return {name: "x" for name, parameter in inspect.signature(method).parameters.items()
            if parameter.default is parameter.empty and parameter.kind is parameter.POSITIONAL_OR_KEYWORD}


def last_reply(client, method, arguments):
    """The last reply to what a method sends, whatever it makes of it. None if there was none."""
    seen = []
    client.session.hooks["response"] = [lambda reply, **_: seen.append(reply)]
    try:
        method(**arguments)
    except Exception:  # whatever the client raises of the reply
        pass
    finally:
        client.session.hooks["response"] = []
    return seen[-1] if seen else None


def mistake_of(client, name, words, verb, path, status):
    """What is wrong with a row, or None."""
    method = method_of(client, name)
    reply = last_reply(client, method, named(words) if words else needed(method))
    if reply is None:
        return f"{name}{words or ''}: there was no reply"
    asked, form = reply.request, re.sub(r"[A-Z]{3,}", ".+", re.escape(f"/v1/{path}"))
    if asked.method == verb and re.fullmatch(form, asked.path_url) and reply.status_code == int(status):
        return None
    return f"{name}{words or ''}: {asked.method} {asked.path_url} got {reply.status_code}"


def unlisted(client, listed):
    """The methods of the parts that no list has."""
    for part in PARTS:
        for name, _ in inspect.getmembers(type(method_of(client, part)), inspect.isroutine):
            if not name.startswith(PRIVATE) and f"{part}.{name}" not in listed:
                yield f"{part}.{name}"


def try_refused(client, served):
    """What is wrong with each row, or None; and the methods in rows that the installed hvac lacks."""
    calls = [found.groups() for found in ROW.finditer(PAGE.read_text(encoding="utf-8"))]
    if not calls:
        raise SystemExit(f"{PAGE.name} has no calls that do not work")
    rows = calls + [row[:-1] for row in rows_of_methods()]
    names = ", ".join(unlisted(client, served | {name for name, *_ in rows}))
    if names:
        print(f"neither {PAGE.name} nor METHODS has these methods of the installed hvac: {names}")
    missing = [name for name, *_ in rows if method_of(client, name) is None]
    return [mistake_of(client, *row) for row in rows if row[0] not in missing], missing
