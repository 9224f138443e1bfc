"""Fetches, with hosts that don't answer."""
import hashlib
import os
import time

from dpbn_tools.driver import fetches as module
from dpbn_tools.driver.buildlogs import BuildLogs
from dpbn_tools.driver.fetches import Fetches
from dpbn_tools.driver.store import Store
from dpbn_tools.driver.tasks import Tasks
from dpbn_tools.log import Large


def test_another_host_is_asked_while_one_does_not_answer(tmp_path, monkeypatch):
    monkeypatch.setattr(module, "LONG", 3)
    monkeypatch.setattr(module, "EACH", 0.05)
    large, told = Large(b"big", hashlib.sha256(b"large").hexdigest(), 5), []
    store = Store(f"{tmp_path}/store", "0" * 16, Tasks(), told.append)
    command = f"echo $HOST >> {tmp_path}/asked; case $HOST in 0) echo $$ > {tmp_path}/pid; sleep 1000;; esac; printf large > \"$TARGET\""
    fetches = Fetches(store, command, lambda: f"{tmp_path}/log", store.tasks, told.append)
    fetches.want(large, [0, 1])
    end = time.monotonic() + 240
    while not store.has(large) and time.monotonic() < end:
        fetches.look()
        store.tasks.look()
        time.sleep(0.02)
    assert (tmp_path / "asked").read_text() == "0\n1\n" and store.has(large) and told == []
    while fetches.wanted and time.monotonic() < end:
        store.tasks.look()
        time.sleep(0.02)
    # the one that doesn't answer is ended
    while is_alive(int((tmp_path / "pid").read_text())) and time.monotonic() < end:
        time.sleep(0.02)
    assert not is_alive(int((tmp_path / "pid").read_text())) and fetches.hosts.running == {0: 0, 1: 0}


def is_alive(number):
    try:
        os.kill(number, 0)
    except ProcessLookupError:
        return False
    return True


def test_common_logs_are_begun_anew(tmp_path, monkeypatch):
    monkeypatch.setattr("dpbn_tools.driver.buildlogs.MAX_COMMON", 10)
    logs = BuildLogs(f"{tmp_path}/logs", 2)
    for text in ("a" * 20, "b" * 20, "c"):
        with open(logs.common("fetch.log"), "a", encoding="ascii") as file:
            file.write(text)
    assert (tmp_path / "logs" / "fetch.log").read_text() == "c" and (tmp_path / "logs" / "fetch.log.1").read_text() == "b" * 20
