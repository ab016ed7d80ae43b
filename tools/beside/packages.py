"""Debian's packages in folders: nothing is installed on this machine.

The guest's packages come with all that they depend on, as for a machine that has none; those of the emulator with what this machine lacks.
"""
import pathlib
import subprocess

GUEST = ["bash", "coreutils", "mount", "util-linux", "tar", "busybox-static", "kmod", "procps", "python3", "bpftrace", "trace-cmd", "linux-perf",
         "linux-image-amd64"]
EMULATOR = ["qemu-system-x86"]
# Folders that are links in Debian.
LINKED = ["bin", "sbin", "lib", "lib64"]


class NoPackages(Exception):
    """Packages could not be had, with what apt-get says."""


def fetched(folder, names, has_none):
    """The packages of these names and what they need, as paths of files in a folder. `has_none` asks for all that they depend on.

    Raises NoPackages where apt-get can't have them.
    """
    archives = pathlib.Path(folder)
    (archives / "partial").mkdir(parents=True, exist_ok=True)
    status = archives / "status"
    status.write_text("")
    words = ["apt-get", "-qq", "-y", "--no-install-recommends", "--download-only", "-o", "Debug::NoLocking=1", "-o", f"Dir::Cache::archives={archives}/"]
    words += ["-o", f"Dir::State::status={status}"] if has_none else []
    done = subprocess.run(words + ["install"] + names, stdin=subprocess.DEVNULL, stdout=subprocess.PIPE, stderr=subprocess.STDOUT)
    if done.returncode:
        raise NoPackages(done.stdout.decode(errors="replace").strip())
    return sorted(archives.glob("*.deb"))


def unpacked(packages, root):
    """Unpacks packages into a folder, without running what they would run where they are installed. Answers the folder."""
    root = pathlib.Path(root)
    for name in LINKED:
        (root / "usr" / name).mkdir(parents=True, exist_ok=True)
        if not (root / name).is_symlink():
            (root / name).symlink_to(f"usr/{name}")
    for package in packages:
        with subprocess.Popen(["dpkg-deb", "--fsys-tarfile", str(package)], stdout=subprocess.PIPE) as contents:
            subprocess.run(["tar", "-x", "--keep-directory-symlink", "--no-same-owner", "-C", str(root)], stdin=contents.stdout, check=True)
        if contents.returncode:
            raise NoPackages(f"{package}: dpkg-deb can't unpack it")
    return root
