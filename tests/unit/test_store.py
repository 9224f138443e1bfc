"""The store of large files."""
import hashlib
import os
import stat
import time

import pytest

from dpbn_tools.driver import store as stores
from dpbn_tools.driver.store import State, Store
from dpbn_tools.driver.tasks import Tasks
from dpbn_tools.driver.workfolder import WorkFolder
from dpbn_tools.log import Large


def large(text: bytes) -> Large:
    return Large(b"big", hashlib.sha256(text).hexdigest(), len(text))


@pytest.fixture
def store(tmp_path):
    return Store(f"{tmp_path}/store", "0" * 16, Tasks(), [].append)


def settled(store, it):
    """What is known of a file once it was hashed."""
    end = time.monotonic() + 240
    while store.state(it) is State.CHECKING and time.monotonic() < end:
        store.look()
        store.tasks.look()
        time.sleep(0.01)
    return store.state(it)


def test_a_file_is_kept_as_another_name_of_it(store, tmp_path):
    (tmp_path / "source").write_bytes(b"large" * 1000)
    store.keep(f"{tmp_path}/source", large(b"large" * 1000))
    kept = store.path(large(b"large" * 1000).digest)
    assert os.path.samefile(kept, tmp_path / "source") and stat.S_IMODE(os.stat(kept).st_mode) == 0o444


def test_a_file_with_another_name_is_copied(store, tmp_path):
    (tmp_path / "source").write_bytes(b"large")
    os.link(tmp_path / "source", tmp_path / "published")
    store.keep(f"{tmp_path}/source", large(b"large"))
    assert not os.path.samefile(store.path(large(b"large").digest), tmp_path / "source")
    assert stat.S_IMODE(os.stat(tmp_path / "published").st_mode) != 0o444


def test_zeros_take_no_room_in_a_copy(store, tmp_path):
    (tmp_path / "source").touch()
    os.truncate(tmp_path / "source", 8 << 20)
    os.link(tmp_path / "source", tmp_path / "other")
    store.keep(f"{tmp_path}/source", large(bytes(8 << 20)))
    assert os.stat(store.path(large(bytes(8 << 20)).digest)).st_blocks * 512 < 1 << 20


@pytest.mark.parametrize("links", [1, 2])
def test_a_sync_that_is_refused_leaves_nothing_in_the_way(store, tmp_path, monkeypatch, links):
    (tmp_path / "source").write_bytes(b"large")
    if links == 2:
        os.link(tmp_path / "source", tmp_path / "other")
    fsync, count = os.fsync, []

    def refuse(number):
        count.append(number)
        if len(count) == 1:
            raise OSError(28, "No space left on device")
        fsync(number)

    monkeypatch.setattr(os, "fsync", refuse)
    with pytest.raises(OSError):
        store.keep(f"{tmp_path}/source", large(b"large"))
    assert os.listdir(store.folder) == []
    store.keep(f"{tmp_path}/source", large(b"large"))
    assert os.listdir(store.folder) == [large(b"large").digest]


def test_what_is_kept_is_on_the_disk_before_it_has_its_name(store, tmp_path, monkeypatch):
    (tmp_path / "source").write_bytes(b"large" * 10_000)
    calls, fsync, rename = [], os.fsync, os.rename

    def synced(number):
        it = os.fstat(number)
        calls.append("folder" if stat.S_ISDIR(it.st_mode) else it.st_size)
        fsync(number)

    monkeypatch.setattr(os, "fsync", synced)
    monkeypatch.setattr(os, "rename", lambda old, new: (calls.append("rename"), rename(old, new)))
    store.keep(f"{tmp_path}/source", large(b"large" * 10_000))
    assert calls == [50_000, "rename", "folder"]


def test_a_file_that_is_put_there_bit_by_bit(store):
    it, found = large(b"large"), []
    os.mkdir(store.folder)
    for text in (b"lar", b"large", b"LARGE"):
        with open(store.path(it.digest), "wb") as file:
            file.write(text)
        store.states.clear()
        found.append((settled(store, it), os.path.exists(store.path(it.digest))))
    assert found == [(State.MISSING, True), (State.PRESENT, True), (State.MISSING, False)]
    assert os.listdir(f"{store.folder}/wrong") == [it.digest]


def test_a_file_that_is_read_wrong_once_stays(store, monkeypatch):
    it, wrong = large(b"large"), [("0" * 64, 5)]
    os.mkdir(store.folder)
    with open(store.path(it.digest), "wb") as file:
        file.write(b"large")
    digest_of = stores.digest_of
    monkeypatch.setattr(stores, "digest_of", lambda path: wrong.pop() if wrong else digest_of(path))
    assert settled(store, it) is State.PRESENT


def test_stores_of_hosts_with_one_name_and_one_path(tmp_path):
    """Each work folder has a token of its own, so that hosts that were cloned don't remove each other's files."""
    tokens = [WorkFolder(f"{tmp_path}/{number}").token() for number in range(2)]
    assert tokens[0] != tokens[1] and WorkFolder(f"{tmp_path}/0").token() == tokens[0]
    one, other = (Store(f"{tmp_path}/store", token, Tasks(), [].append) for token in tokens)
    os.mkdir(one.folder)
    old = time.time() - 10_000
    for name in (one.new("1" * 64, "kept"), other.new("1" * 64, "kept")):
        with open(name.replace(stores.OWN, ".run.build-jobs"), "wb"):
            pass
        os.utime(name.replace(stores.OWN, ".run.build-jobs"), (old, old))
    one.clear()
    assert os.listdir(one.folder) == [os.path.basename(other.new("1" * 64, "kept").replace(stores.OWN, ".run.build-jobs"))]
