"""A guest under emulation: a kernel of Debian's, a root of its packages, and what runs in it.

It has no network. What goes in is a tar file on one disk, what comes out another on a second one; its root is a disk that stays as it was.
"""
import contextlib
import os
import pathlib
import shutil
import subprocess
import sys
import tarfile
import tempfile

from packages import EMULATOR, GUEST, fetched, unpacked

# What the small root needs to find the great one, in the order in which the kernel takes it.
MODULES = ["drivers/virtio/virtio_ring", "drivers/virtio/virtio", "drivers/virtio/virtio_pci_legacy_dev", "drivers/virtio/virtio_pci_modern_dev",
           "drivers/virtio/virtio_pci", "drivers/block/virtio_blk", "arch/x86/crypto/crc32c-intel", "crypto/crc32c_generic", "lib/crc16",
           "fs/mbcache", "fs/jbd2/jbd2", "fs/ext4/ext4"]
MEGABYTE = 1 << 20
ROOT_MEGABYTES, IN_MEGABYTES, OUT_MEGABYTES, WORK_MEGABYTES = 1600, 64, 512, 64
SMALL_INIT = """#!/bin/sh
B=/bin/busybox
$B mount -t devtmpfs d /dev; $B mount -t proc p /proc; $B mount -t sysfs s /sys
for module in /modules/*.ko; do $B insmod $module || echo "insmod $module failed"; done
n=0; while [ ! -b /dev/vda ] && [ $n -lt 100 ]; do $B sleep 0.1; n=$((n + 1)); done
$B mount -t ext4 /dev/vda /root || { echo "no root"; echo o > /proc/sysrq-trigger; $B sleep 9; }
$B umount /proc /sys
$B mount -o move /dev /root/dev
exec $B switch_root /root /sbin/beside-init
"""
INIT = """#!/bin/bash
export PATH=/usr/sbin:/usr/bin:/sbin:/bin HOME=/root LC_ALL=C PYTHONDONTWRITEBYTECODE=1
mount -t proc p /proc; mount -t sysfs s /sys; mount -t tmpfs t /tmp; mount -t tmpfs r /run
mount -t tracefs t /sys/kernel/tracing; mount -t debugfs d /sys/kernel/debug; mount -t bpf b /sys/fs/bpf
exec < /dev/console > /dev/console 2>&1
echo "guest up: $(uname -r), $(nproc) CPUs, $(cat /proc/uptime) s"
mkdir -p /tmp/in /tmp/out; tar xf /dev/vdb -C /tmp/in
cd /tmp/in && python3 inside.py /tmp/out /dev/vdd
cd /tmp/out && tar cf /dev/vdc . ; sync
echo "guest done: $(cat /proc/uptime) s"
echo o > /proc/sysrq-trigger; sleep 30
"""


HERE = """#!/bin/sh
exec {loader} --library-path {library} {bpftrace} "$@"
"""


class NoGuest(Exception):
    """A guest could not be made or did not end as it should, with why."""


def made(folder):
    """Makes what a guest needs in a folder, or takes what is there from an earlier time. Answers the guest."""
    folder = pathlib.Path(folder)
    guest = Guest(folder)
    if not guest.is_made():
        unpacked(fetched(folder / "emulator-packages", EMULATOR, False), folder / "emulator")
        unpacked(fetched(folder / "guest-packages", GUEST, True), guest.root)
        guest.make_kernel()
        guest.make_small_root()
        guest.make_disk()
        (folder / "made").write_text("")
    return guest


class Guest:
    """What a guest is made of, in a folder."""

    def __init__(self, folder):
        self.folder = folder
        self.root = folder / "root"
        self.kernel = folder / "kernel"
        self.small_root = folder / "small-root.cpio"
        self.disk = folder / "root.img"

    def is_made(self):
        """Whether all is there."""
        return (self.folder / "made").exists()

    def release(self):
        """The kernel's release, as `6.1.0-57-amd64`."""
        found = sorted(path.name for path in (self.root / "usr/lib/modules").iterdir())
        if not found:
            raise NoGuest("the guest's packages have no kernel")
        return found[-1]

    def make_kernel(self):
        """Takes the kernel out of its package."""
        shutil.copy(self.root / "boot" / f"vmlinuz-{self.release()}", self.kernel)

    def make_small_root(self):
        """Makes the root that the kernel begins with."""
        small = self.folder / "small-root"
        shutil.rmtree(small, ignore_errors=True)
        for name in ("bin", "modules", "root", "dev", "proc", "sys"):
            (small / name).mkdir(parents=True)
        shutil.copy(self.root / "bin/busybox", small / "bin/busybox")
        (small / "bin/sh").symlink_to("busybox")
        for place, module in enumerate(MODULES):
            path = self.root / "usr/lib/modules" / self.release() / "kernel" / f"{module}.ko"
            if path.exists():
                shutil.copy(path, small / "modules" / f"{place:02}-{path.name}")
        write_program(small / "init", SMALL_INIT)
        names = "".join(f"{path.relative_to(small)}\n" for path in sorted(small.rglob("*")))
        with open(self.small_root, "wb") as file:
            subprocess.run([str(self.root / "bin/busybox"), "cpio", "-o", "-H", "newc"], cwd=small, input=names.encode(), stdout=file,
                           stderr=subprocess.DEVNULL, check=True)

    def make_disk(self):
        """Makes the disk with the root."""
        for name in ("proc", "sys", "dev", "tmp", "run", "root"):
            (self.root / name).mkdir(exist_ok=True)
        write_program(self.root / "usr/sbin/beside-init", INIT)
        if not (self.root / "usr/bin/sh").exists():
            (self.root / "usr/bin/sh").symlink_to("bash")
        (self.root / "etc/passwd").write_text("root:x:0:0:root:/root:/bin/bash\n")
        (self.root / "etc/group").write_text("root:x:0:\n")
        with open(self.disk, "wb") as file:
            file.truncate(ROOT_MEGABYTES * MEGABYTE)
        words = ["mke2fs", "-q", "-t", "ext4", "-O", "^has_journal,^metadata_csum", "-E", "lazy_itable_init=1", "-d", str(self.root), str(self.disk)]
        subprocess.run(words, check=True, env={**os.environ, "PATH": os.environ.get("PATH", "") + ":/usr/sbin:/sbin"})

    def run(self, inputs, output, cpus, megabytes, seconds):
        """Boots with the files of a folder in the guest's /tmp/in and runs the `inside.py` among them; unpacks what it left into a folder.

        Raises NoGuest where the guest does not end within so many seconds. What its console said stands beside the folder, as `.log`.
        """
        work = self.folder / f"run-{os.getpid()}"
        work.mkdir()
        log = output.parent / f"{output.name}.log"
        try:
            disks = {"in": IN_MEGABYTES, "out": OUT_MEGABYTES, "work": WORK_MEGABYTES}
            with tarfile.open(work / "in", "w") as file:
                file.add(inputs, arcname=".")
            for name, size in disks.items():
                with open(work / name, "ab") as file:
                    file.truncate(size * MEGABYTE)
            with open(log, "wb") as console, contextlib.suppress(subprocess.TimeoutExpired):
                subprocess.run(self.words(work, disks, cpus, megabytes), stdin=subprocess.DEVNULL, stdout=console, stderr=subprocess.STDOUT,
                               env=self.environment(), timeout=seconds)
            shutil.rmtree(output, ignore_errors=True)
            output.mkdir(parents=True)
            with contextlib.suppress(tarfile.ReadError), tarfile.open(work / "out") as file:
                file.extractall(output)
        finally:
            shutil.rmtree(work)
        if b"guest done" not in log.read_bytes():
            raise NoGuest(f"the guest did not end within {seconds} s, or not as it should; its console: {log}")

    def run_here(self, inputs, output, seconds):
        """Runs the same on this machine's own kernel, as root: by the guest's bpftrace, which stays where it was unpacked."""
        programs = self.folder / "here"
        programs.mkdir(exist_ok=True)
        library = self.root / "usr/lib"
        write_program(programs / "bpftrace", HERE.format(loader=library / "x86_64-linux-gnu/ld-linux-x86-64.so.2", bpftrace=self.root / "usr/bin/bpftrace",
                                                         library=f"{library}/x86_64-linux-gnu:{library}"))
        shutil.rmtree(output, ignore_errors=True)
        output.mkdir(parents=True)
        with tempfile.NamedTemporaryFile(dir=self.folder) as device:
            device.truncate(WORK_MEGABYTES * MEGABYTE)
            subprocess.run([sys.executable, "inside.py", str(output), device.name], cwd=inputs, stdin=subprocess.DEVNULL, check=True, timeout=seconds,
                           env={**os.environ, "PATH": f"{programs}:{os.environ.get('PATH', '')}"})

    def environment(self):
        """The emulator's environment, in which it finds its libraries."""
        library = self.folder / "emulator/usr/lib"
        return {**os.environ, "LD_LIBRARY_PATH": f"{library}/x86_64-linux-gnu:{library}"}

    def words(self, work, disks, cpus, megabytes):
        """The emulator's command."""
        share = self.folder / "emulator/usr/share"
        words = ["nice", "-n", "15", str(self.folder / "emulator/usr/bin/qemu-system-x86_64"), "-L", str(share / "qemu"), "-L", str(share / "seabios"),
                 "-machine", "q35", "-accel", "tcg,thread=multi", "-cpu", "max", "-smp", str(cpus), "-m", str(megabytes), "-nographic", "-no-reboot",
                 "-net", "none", "-kernel", str(self.kernel), "-initrd", str(self.small_root),
                 "-append", "console=ttyS0 panic=-1 quiet loglevel=4 mitigations=off nokaslr audit=0",
                 "-drive", f"file={self.disk},if=virtio,format=raw,snapshot=on"]
        for name in disks:
            words += ["-drive", f"file={work / name},if=virtio,format=raw,cache=none" if name == "work" else f"file={work / name},if=virtio,format=raw"]
        return words


def write_program(path, text):
    """Writes a program that can be run."""
    path.write_text(text)
    path.chmod(0o755)
