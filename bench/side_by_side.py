#!/usr/bin/env python3
"""Times `rangelock` and RocksDB's range lock manager on the same traces, in one run. `./run` calls it.

  side_by_side.py --rangelock PATH --players FOLDER [--workers 1 2 4] [--only PREFIX] [--reps 5] --folder DIR

Printed for each trace: nanoseconds an ask (with its share of the release), the least over all repetitions, taken in turns.
  bare     RocksDB's calls alone: begin, ask, release, without reading or printing
  library  the calls of the C library alone, where its archive is built: a free for each range, or a release for each tree (at once)
  process  the whole process that reads the trace and prints the answers, less that of an empty trace
For `escalate_60000`: nanoseconds an escalation. Where the folder has no players, rangelock is timed alone.
"""
import argparse
import os
import subprocess
import time

import traces

def wall(command, path):
    with open(path) as f:
        start = time.perf_counter()
        done = subprocess.run(command, stdin=f, stdout=subprocess.PIPE, stderr=subprocess.DEVNULL)
        return time.perf_counter() - start if done.returncode == 0 else None


def bare(player, path, prep, threads, flags):
    # with threads, a helper's lock outside them keeps RocksDB from beginning a buffer: --spoil
    more = [flag for flag in flags if threads or flag != "--spoil"] + (["--threads", str(threads)] if threads else ["--prep", str(prep)])
    done = subprocess.run([player, path, "--reps", "1"] + more, capture_output=True, text=True)
    words = done.stdout.split()
    if done.returncode != 0 or len(words) < 2:
        return None
    got = {words[i]: float(words[i + 1]) for i in range(0, len(words) - 1, 2)}
    return got["escalate_best"] if got.get("escalate_best") else got["wall_per_ask_best"]


def least(old, new):
    return new if old is None else old if new is None else min(old, new)


def main():
    ap = argparse.ArgumentParser(description=__doc__, formatter_class=argparse.RawDescriptionHelpFormatter)
    ap.add_argument("--rangelock", required=True)
    ap.add_argument("--players", required=True)
    ap.add_argument("--workers", type=int, nargs="*", default=[])
    ap.add_argument("--only", default="")
    ap.add_argument("--reps", type=int, default=5)
    ap.add_argument("--folder", required=True)
    a = ap.parse_args()
    traces.write(a.folder, 20261201)
    empty = os.path.join(a.folder, "empty.trace")
    with open(empty, "w") as f:
        f.write("\n".join(traces.head()) + "\n")
    calls, player = os.path.join(a.players, "bench"), os.path.join(a.players, "rocks_play")
    rocks = os.path.exists(calls) and os.path.exists(player)
    programs = ([("RocksDB process", [player])] if rocks else []) + [("serial", [a.rangelock, "serial"])]
    programs += [(f"crew {n}", [a.rangelock, "crew", str(n)]) for n in a.workers]
    library = os.path.join(a.players, "library")
    alone = [("RocksDB bare", calls, ["--spoil"])] if rocks else []
    alone += [("library", library, []), ("library at once", library, ["--at-once"])] if os.path.exists(library) else []
    many = [n for n in a.workers if n > 1]
    columns = [of for name, _, _ in alone for of in [name] + [f"{name}, {n} threads" for n in many]] + [p[0] for p in programs]
    print("| trace | asks |", " | ".join(columns), "|")
    print("|---|---|" + "---|" * len(columns))
    zero = {label: min((wall(command, empty) or 9) for _ in range(5)) for label, command in programs}
    for name in traces.traces(20261201):
        if not name.startswith(a.only):
            continue
        path = os.path.join(a.folder, name + ".trace")
        prep = int(open(os.path.join(a.folder, name + ".prep")).read())
        asks = sum(" try " in line for line in open(path))
        escalates = name.startswith("escalate")
        base = None
        if escalates:  # the same trace without its escalations
            base = os.path.join(a.folder, name + ".base")
            with open(base, "w") as f:
                f.writelines(line for line in open(path) if " escalate " not in line)
        best = {}
        for _ in range(a.reps):
            for of, caller, flags in alone:
                threaded = name.startswith("threads")
                best[of] = least(best.get(of), bare(caller, path, prep, 1 if threaded else 0, flags))
                for n in many if threaded else []:
                    best[f"{of}, {n} threads"] = least(best.get(f"{of}, {n} threads"), bare(caller, path, prep, n, flags))
            for label, command in programs:
                if label.startswith("crew") and not name.startswith("threads"):
                    continue
                took = wall(command, path)
                if took is None:
                    continue
                if escalates:
                    took = (took - (wall(command, base) or took)) * 1e9 / 20
                else:
                    took = (took - zero[label]) * 1e9 / asks
                best[label] = least(best.get(label), took)
        print(f"| {name} | {asks:,} |", " | ".join(f"{best[c]:,.0f}" if best.get(c) is not None else "-" for c in columns), "|", flush=True)


if __name__ == "__main__":
    main()
