"""Labels of hosts, from a file of lines HOST NAME=VALUE .., where # begins a remark."""
from btfleet.faults import READ, WORDS, Refused
from btreplay.refusal import why_unread


def labels_in(text, label, path):
    """The values of a label by hosts, as a text has them; Refused where a line is none."""
    found, seen = {}, set()
    for number, line in enumerate(text.split("\n"), 1):
        host, *pairs = line.split("#")[0].split() or [""]
        values = dict(pair.partition("=")[::2] for pair in pairs)
        if any(not name or not sign or not value for name, sign, value in (pair.partition("=") for pair in pairs)):
            raise Refused(f"{path}:{number}: a line is HOST NAME=VALUE ..", WORDS)
        if host in seen or len(values) < len(pairs):
            raise Refused(f"{path}:{number}: {host} has its labels twice", WORDS)
        seen.update({host} if host else ())
        found.update({host: values[label]} if label in values else {})
    if not found:
        raise Refused(f"{path}: no host has the label {label}", WORDS)
    return found


def labels_of(path, label):
    """The values of a label by hosts, as a file has them; Refused where it cannot be read or has none."""
    try:
        with open(path, encoding="utf-8") as file:
            return labels_in(file.read(), label, path)
    except OSError as error:
        raise Refused(f"{path}: {why_unread(path)}", READ) from error
    except ValueError as error:
        raise Refused(f"{path}: it is no text: {error}", WORDS) from error


def groups_of(hosts, path, label):
    """The group of each host by a label; Refused where a host has none."""
    values = labels_of(path, label)
    lacking = sorted(set(hosts) - values.keys())
    if lacking:
        more = f" and {len(lacking) - 5:,} more" if len(lacking) > 5 else ""
        raise Refused(f"{path}: no {label} is said of {', '.join(lacking[:5])}{more}", WORDS)
    return {host: values[host] for host in hosts}
