"""What a replica tells of itself, as JSON for people and as Prometheus' text for machines."""
import os
import time
from typing import TYPE_CHECKING, Any, Dict, Iterator, List, Optional

from .batches import RULES
from .figures import headed, labelled, memory, one

if TYPE_CHECKING:
    from .replica import Replica


def of(replica: "Replica") -> Dict[str, Any]:
    log, told = replica.log, replica.told
    found: Dict[str, Any] = {
        "name": replica.options.name, "version": replica.version, "url": replica.options.url, "rules": RULES,
        "member": replica.etcd.member, "trouble": replica.trouble, "ready": replica.unready() is None, "leads": replica.leads,
        "hands_to": hands_to(replica),
        "etcd_heard_seconds_ago": round(time.monotonic() - replica.etcd.heard, 3), "memory_bytes": memory()}
    if log:
        position = log.position
        found.update({
            "cluster": f"{position.cluster & (1 << 64) - 1:x}", "revision": position.revision, "entries": position.entries,
            "chain": position.chain, "top": log.ledger.top, "floor": log.floor, "procedures": sorted(log.ledger.procedures),
            "behind": max(0, told.last - position.revision) if told else None, "fence": told.fence._asdict() if told else None,
            "differing_places": sorted(replica.digests.differing) if replica.digests else []})
        last = max(log.digests, default=None)
        found["digest"] = log.digests[last]._asdict() if last is not None else None
    return found


def hands_to(replica: "Replica") -> Optional[str]:
    """The URL of the replica that puts this one's entries, if another one does."""
    handing = replica.sequencer.handing if replica.sequencer else None
    return handing.url if handing and handing.is_open else None


def numbers(replica: "Replica") -> Iterator[List[Any]]:
    """Gauges, by name, help and value."""
    log, told = replica.log, replica.told
    yield ["ready", "whether it has all that etcd had lately", int(replica.unready() is None)]
    yield ["stopped", "whether it answers nothing, since its log or its store is wrong", int(replica.is_stopped)]
    yield ["leads", "whether it is the one that bounds the log", int(replica.leads)]
    yield ["memory_bytes", "memory of the process in use", memory()]
    yield ["etcd_heard_seconds", "time since etcd answered", round(time.monotonic() - replica.etcd.heard, 3)]
    yield ["connections", "connections at the door", len(replica.server.connections)]
    if replica.sequencer:
        yield ["waiting", "clients' entries that wait for an answer", replica.sequencer.count]
    if not log:
        return
    yield ["revision", "etcd's revision of the last entry that has run", log.position.revision]
    yield ["entries", "entries of the log that have run", log.position.entries]
    yield ["top", "sequence number of the last transaction", log.ledger.top]
    yield ["floor", "least sequence number that can be read at", log.floor]
    yield ["differing_places", "places where another replica's digests differ",
           len(replica.digests.differing) if replica.digests else 0]
    if told:
        yield ["lag_revisions", "etcd's revisions up to its last entry that haven't run", max(0, told.last - log.position.revision)]
        yield ["fence_entries", "entries that are deleted in etcd", told.fence.entries]
    disk = os.statvfs(replica.options.folder)
    yield ["disk_free_bytes", "space left where the ledger is", disk.f_bavail * disk.f_frsize]
    yield ["file_bytes", "size of the ledger's file", os.path.getsize(log.path)]


def metrics(replica: "Replica") -> str:
    lines = [line for name, help_, value in numbers(replica) for line in one(name, "gauge", help_, value)]
    lines += [*headed("build_info", "gauge", "versions of the program and of the library"),
              f'bohm_build_info{{version="{replica.version}",library="{replica.library.version}",rules="{RULES}"}} 1']
    lines += labelled("etcd_errors_total", "requests to etcd that failed", "kind", replica.etcd.faults)
    lines += one("etcd_requests_total", "counter", "requests to etcd", replica.etcd.requests)
    handing = replica.sequencer.handing if replica.sequencer else None
    lines += labelled("handed_total", "times that entries were handed to the replica that puts for all", "kind", handing.counts if handing else {})
    reconnects = replica.follower.reconnects if replica.follower else 0
    lines += one("reconnects_total", "counter", "times that the log was begun to be followed again", reconnects)
    return "\n".join([*lines, *replica.figures.lines()]) + "\n"
