"""Reads a containerd daemon's files, says them as a script of metad, and tells what it answers.

| Module | Is |
|---|---|
| words | the tool's words, and how each ends |
| usage, plan, prune, impact, why, compare | a word each |
| doctor, forecast, ingests, metrics, graph | a word each |
| demo | `--demo`, which asks a recorded store |
| freeing, still_free | `free` and `still-free` |
| commands, orders | the commands that remove a thing, and the lines around them |
| ages, amounts | how old rows are; sizes and ages that the words take |
| copying, exporting | `copy` and `export`, which ask metad nothing |
| report, refused, completion | words about replies, and about the words |
| store | a store that a word asks about |
| asking | a run of metad that is asked over pipes |
| daemon, versions | whose store it is, and what that version of containerd reads |
| rows | the rows that a script leaves |
| states | which images are used, held or free |
| people | what people call a container |
| walks | which rows keep which, to rank them |
| disk, disk_page | what is on the disk, and what of it no row has |
| measuring | the bytes of writable snapshots |
| freed | what a report frees beyond another |
| printing, progress | what is told, and meanwhile |
| pages | the pages of a bolt file as a tree of buckets |
| buckets | the rows of meta.db that stand in these buckets |
| numbers | Go's numbers and times as bytes, and expiries as texts |
| backends | what the daemon's folder holds: blobs, ingests, snapshots |
| later, reach | what containerd 2 says otherwise, and how long a row is reached |
| texts | names, digests and labels, said as metad allows them |
| lines | request lines with their labels |
| script | all rows as a script |
| remarks | what a script can't say |
| sizes | the file of sizes beside a script |
| requests | what a request line may say |
| names | which names a store has, by its replies |
"""
from __future__ import annotations
