"""Groups and access control lists of ACL messages, as a configuration has them."""


def group_of(told):
    """A group as a configuration has it."""
    group = {"name": told["name"]}
    group |= {key: False for key in ("inherit", "inheritable") if not told.get(key, True)}
    return group | {key: told[key] for key in ("add", "remove") if told.get(key)}


def entry_of(told):
    """An entry as a configuration has it."""
    entry = {"account": told["user_id"]} if "user_id" in told else {"group": told.get("group", "")}
    places = (("here", "apply_here"), ("subs", "apply_subs"))
    entry |= {key: False for key, name in places if not told.get(name, True)}
    return entry | {key: told[key] for key in ("grant", "deny") if told.get(key)}


def policy_of(told):
    """The groups and the list of a channel of which a message tells; what is as usual is left out."""
    policy = {} if told.get("inherit_acls", True) else {"inherit_acls": False}
    groups = [group_of(group) for group in told.get("groups", []) if not group.get("inherited", False)
              or group.get("add") or group.get("remove")]
    entries = [entry_of(entry) for entry in told.get("acls", []) if not entry.get("inherited", False)]
    return policy | ({"groups": groups} if groups else {}) | ({"acls": entries} if entries else {})
