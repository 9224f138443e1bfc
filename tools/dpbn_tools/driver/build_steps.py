"""What is done for one build next to the loop: its folder is laid out, what it made is handed in, or it is marked as failed."""
from __future__ import annotations

import argparse
import os
import shutil
import time
from typing import Dict, List

from dpbn_tools.log import Record
from dpbn_tools.paths import folder_name, short_name
from dpbn_tools.driver import handin
from dpbn_tools.driver.build import Build, remove_folder
from dpbn_tools.driver.buildlogs import BuildLogs
from dpbn_tools.driver.held import Held
from dpbn_tools.driver.job import Job
from dpbn_tools.driver.limits import Limits
from dpbn_tools.driver.lines import Lines
from dpbn_tools.driver.names import Listed
from dpbn_tools.driver.reuse import NoInputs, Reuse
from dpbn_tools.driver.store import Store
from dpbn_tools.driver.workfolder import WorkFolder, put

# how often a build's limits are looked at, in seconds
LIMITS_EACH = 0.2


class Changed(Exception):
    """A file of the store isn't as it was when it was hashed."""


class BuildSteps:
    """The words and folders that all builds share."""

    def __init__(self, asked: argparse.Namespace, work: WorkFolder, logs: BuildLogs, store: Store, held: Held, listed: Listed | None,
                 reuse: Reuse | None, lines: Lines) -> None:
        self.asked, self.work, self.logs, self.store, self.held, self.lines = asked, work, logs, store, held, lines
        self.listed, self.reuse = listed, reuse
        self.command: List[str] = list(asked.command)
        if "/" in self.command[0]:
            # each build begins in a folder of its own
            self.command[0] = os.path.abspath(self.command[0])
        self.keep_failed = os.path.realpath(asked.keep_failed) if asked.keep_failed else ""

    # ---- before

    def names_of(self, job: Job) -> Dict[bytes, bytes]:
        return self.listed.of(job) if self.listed else {}

    def other_listing(self, job: Job, needed: List[Record]) -> str:
        """Why the listing isn't that of the node, if it isn't."""
        if not self.listed:
            return ""
        lacking, other = self.listed.lacking(job), self.listed.other(needed)
        if lacking:
            return f"{self.listed.path} doesn't list {lacking.decode()}, so it isn't the listing of the node"
        if other:
            return f"{self.listed.path} hasn't {other.name.decode()} for {other.path.decode()}, so it isn't the listing of the node"
        return ""

    def environment(self, build: Build) -> Dict[str, str]:
        return build.environment(f"{self.work.path}/jobs/{build.job.name}", self.listed is not None)

    def lay(self, build: Build) -> bool:
        """Lays the build's folder out, and starts its command."""
        try:
            build.make(f"{self.work.path}/build")
            is_copied = False
            for record in build.needed or []:
                folder = f"{build.file('deps')}/{folder_name(record.path)}"
                self.held.write(record, folder)
                for large in record.large:
                    if not self.store.has(large):
                        raise Changed(large.digest)
                    is_copied = self.store.lay(large, folder) or is_copied
            if is_copied and not self.store.is_copy_told:
                self.store.is_copy_told = True
                self.lines.tell(f"~ files are copied into DEPS, since {self.store.folder} is on another file system than {self.work.path}")
            build.tell_names(self.names_of(build.job), build.needed or [])
            self.start(build)
        except BaseException:
            self.work.end(build.job.name)
            if build.folder:
                remove_folder(build.folder)
            raise
        return True

    def start(self, build: Build) -> None:
        begun = self.work.begin(build.job.name)
        try:
            log = self.logs.begin(build.job)
            try:
                build.header = os.write(log, f"## {time.strftime('%FT%TZ', time.gmtime())}\n".encode() + build.job.text)
                build.start(self.command, log, self.asked.grace, self.environment(build), begun)
            finally:
                os.close(log)
        finally:
            os.close(begun)

    def look_for_earlier(self, build: Build, needed: List[Record]) -> bool:
        """Looks whether the packages were built before on the same bytes, and puts them where a build would have. Returns whether."""
        reuse = self.reuse
        assert reuse
        build.make(f"{self.work.path}/build")
        names = self.names_of(build.job)
        build.tell_names(names, needed)
        build.key = reuse.key(build, needed, names, self.environment(build), self.logs.common("inputs.log"))
        try:
            is_there = reuse.lay(build.key, build.file("out"))
        except Exception as error:
            raise NoInputs(f"{reuse.folder}/{build.key}: {error}") from error
        if is_there:
            how = "of the same names" if reuse.by_name else "with the same bytes"
            log = self.logs.begin(build.job)
            os.write(log, f"## {time.strftime('%FT%TZ', time.gmtime())}\n".encode() + build.job.text
                     + f"## not built: from {reuse.folder}/{build.key}, which was built on packages {how}\n".encode())
            os.close(log)
        return is_there

    # ---- meanwhile

    def free_bytes(self) -> int:
        """How much disk is free for builds, the store and the logs: the least of these."""
        folders = [self.work.path, self.logs.folder, *([self.store.folder] if os.path.isdir(self.store.folder) else [])]
        return min(it.f_bavail * it.f_frsize for it in map(os.statvfs, folders))

    def beyond(self, build: Build, limits: Limits) -> str:
        """Which limit the build has passed, if any."""
        now = time.monotonic()
        if now < build.limits_due:
            return ""
        build.limits_due = now + LIMITS_EACH
        took = now - build.command.began if build.command else time.time() - build.began
        longest, silent, most = (limits.of(build.job, word) for word in ("limit", "silent", "log-bytes"))
        if longest is not None and took > longest:
            return f"it took longer than {longest} s"
        if silent is None and most is None:
            return ""
        printed = self.logs.size(build.job) - build.header
        if printed != build.printed:
            build.printed, build.silent_since = printed, now
        if most is not None and printed > most:
            return f"it printed more than {most} bytes"
        if silent is not None and now > build.silent_since + silent:
            return f"it printed nothing for {silent} s"
        return ""

    # ---- afterwards

    def examine(self, build: Build, limits: Limits) -> None:
        """Looks at what the build made, and keeps its large files. Failed says why it isn't handed in. What the system refuses is
        raised, and may be tried again."""
        if build.made is None:
            if not self.listed and os.path.exists(f"{build.file('out')}/{handin.NAMES}"):
                self.lines.tell_once("~ the names in OUT/NAMES are compared with nothing: there is no --listing", "names")
            handin.check_names(build, self.names_of(build.job))
            if not build.is_reused:
                handin.check_seen(build, build.needed or [])
            build.made = handin.made_by(build, limits.of(build.job, "out-bytes"))
        text = handin.text_for(build.made, self.asked.digests)
        handin.keep(build.made, self.store)
        build.text = text

    def hand_in(self, build: Build) -> None:
        put(f"{self.work.path}/done", build.job.name, build.text or [])

    def mark(self, build: Build, limits: Limits) -> str:
        """Marks the build as failed. Returns where its log is. What it made goes first: that may be what fills the disk."""
        most = limits.of(build.job, "log-bytes")
        log = self.logs.path(build.job)
        if most is not None and os.path.exists(log) and os.path.getsize(log) > build.header + most:
            self.logs.cut(build.job, build.header + most)
        if self.keep_failed:
            try:
                self.keep_tree(build)
            except OSError as error:
                self.lines.tell(f"? the work tree of {build.job} isn't kept: {error}")
        build.empty()
        log = self.logs.has_failed(build.job)
        why = build.failed.replace("\n", " ")
        put(f"{self.work.path}/failed", build.job.name, [f"{build.job}: {why}\n{log}\n"])
        return log

    def keep_tree(self, build: Build) -> None:
        """Keeps the work tree of a build that failed, in place of that of the try before."""
        target = f"{self.keep_failed}/{short_name(build.job.unit)}"
        os.makedirs(self.keep_failed, exist_ok=True)
        if not os.path.isdir(build.file("obj")):
            return
        remove_folder(target)
        os.mkdir(target)
        for name in ("obj", "out"):
            try:
                os.rename(build.file(name), f"{target}/{name}")
            except OSError:
                shutil.copytree(build.file(name), f"{target}/{name}", symlinks=True)

    def remove(self, build: Build) -> None:
        """Removes the build's folder, and shows that its job has none that runs."""
        self.work.end(build.job.name)
        if build.folder and not remove_folder(build.folder):
            self.lines.tell(f"= {build.folder} can't be removed")
