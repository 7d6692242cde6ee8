#!/usr/bin/env python3
"""Makes a large file of one kind, of the size that its words ask for. The same words give the same bytes.

  make.py KIND [--frames N] [--systems N] [--types N] [--messages N]

Each kind has sizes of its own if none are given; `make.py --list` prints them. The kind `calls` is a calls file,
with `--messages` values in its batches; the others are scenario files.
"""
import argparse
import json
import random
import sys

LIMIT = 1_000_000  # numbers of a type
BATCH = 256  # values of a batch of a calls file
LONGEST_BATCH = 1024  # values of the longest batch that a system may write


def names(letter, count):
    return [f"{letter}{k}" for k in range(count)]


def scenario(types, systems, frames, **rest):
    return {"types": [[t, LIMIT] for t in types], "systems": systems, "frames": frames, **rest}


def readers(rng, frames, systems, messages):
    """Systems that all read one type, side by side; the host posts its messages."""
    return scenario(["hit"], [{"name": r, "ops": [["read", "hit"]]} for r in names("r", systems)],
                    [[["hit", rng.randint(-999, 999)] for _ in range(messages)] for _ in range(frames)])


def chain(rng, frames, systems):
    """Systems of which every two conflict, so that each batch has one job."""
    ops = [["write", "hit", 1], ["add", "total", 1]]
    return scenario(["hit"], [{"name": s, "ops": ops} for s in names("s", systems)], [[] for _ in range(frames)],
                    resources=[["total", 0]])


def free(rng, frames, systems, types):
    """Systems without a conflict: a writer for each type but the last, and readers of that one."""
    written, last = names("t", types)[:-1], f"t{types - 1}"
    writers = [{"name": f"w{k}", "ops": [["write", t, k], ["batch", t, list(range(8))]]}
               for k, t in enumerate(written[:systems])]
    others = [{"name": f"r{k}", "ops": [["len", last], ["read", last]]} for k in range(systems - len(writers))]
    return scenario(names("t", types), writers + others, [[[last, rng.randint(0, 9)]] for _ in range(frames)])


def pipelines(rng, frames, systems, messages):
    """Lines of four systems: three relays, and a tally of the last type."""
    lines = systems // 4
    relays = [{"name": f"f{p}_{k}", "kind": "relay", "ops": [["forward", f"t{p}_{k}", f"t{p}_{k + 1}"]]}
              for p in range(lines) for k in range(3)]
    tallies = [{"name": f"s{p}", "kind": "tally", "ops": [["sum", f"t{p}_3", f"sum{p}"]]} for p in range(lines)]
    return scenario([f"t{p}_{k}" for p in range(lines) for k in range(4)], relays + tallies,
                    [[[f"t{rng.randrange(lines)}_0", rng.randint(-999, 999)] for _ in range(messages)]
                     for _ in range(frames)],
                    resources=[[f"sum{p}", 0] for p in range(lines)],
                    rules=[[f"f{p}_{k}", f"f{p}_{k + 1}"] for p in range(lines) for k in range(2)])


def writes(rng, frames, systems, messages):
    """A system for each type, which writes batches of 1,024 values; little text."""
    values = [rng.randint(0, 9) for _ in range(LONGEST_BATCH)]
    return scenario(names("t", systems),
                    [{"name": f"w{k}", "ops": [["batch", f"t{k}", values]] * (messages // LONGEST_BATCH)}
                     for k in range(systems)],
                    [[] for _ in range(frames)])


def joins(rng, frames, systems, types):
    """Systems that join one after the other, one with each frame, and write what others read."""
    return scenario(names("t", types),
                    [{"name": f"s{k}", "join": k % frames + 1,
                      "ops": [["read", f"t{k % types}"], ["write", f"t{(k + 1) % types}", k]]} for k in range(systems)],
                    [[] for _ in range(frames)])


def posts(rng, frames, messages):
    """Frames of many posts, which two systems clear."""
    return scenario(["a", "b"], [{"name": s, "ops": [["clear", t]]} for s, t in (("x", "a"), ("y", "b"))],
                    [[[rng.choice("ab"), rng.randint(0, 9)] for _ in range(messages)] for _ in range(frames)])


def calls(rng, messages):
    """Calls of one buffer: a batch and a read of it each time, and then an update or a len."""
    made = []
    for k in range(messages // BATCH):
        made += [["batch", [rng.randint(-9999, 99999) for _ in range(BATCH)]], ["read", 0]]
        made += [["update"]] if k % 2 else [["len", 0]]
    return {"limit": LIMIT, "calls": made}


# the kinds, with the sizes that they have if none are given
KINDS = {
    readers: {"frames": 2000, "systems": 64, "messages": 2},
    chain: {"frames": 1000, "systems": 128},
    free: {"frames": 500, "systems": 128, "types": 32},
    pipelines: {"frames": 1000, "systems": 32, "messages": 64},
    writes: {"frames": 60, "systems": 32, "messages": 8192},
    joins: {"frames": 64, "systems": 64, "types": 8},
    posts: {"frames": 1000, "messages": 128},
    calls: {"messages": 262144},
}
BY_NAME = {kind.__name__: kind for kind in KINDS}


def made(name, **sizes):
    """The bytes of a file of this kind; a size that it hasn't got, or that is below 1, ends the program."""
    kind = BY_NAME[name]
    sizes = {key: size for key, size in sizes.items() if size is not None}
    for key, size in sizes.items():
        if key not in KINDS[kind] or size < 1:
            sys.exit(f"{name} takes no --{key} {size}")
    sizes = KINDS[kind] | sizes
    return json.dumps(kind(random.Random(name), **sizes), separators=(",", ":")).encode()


def main():
    words = argparse.ArgumentParser(description="Makes a large file of one kind.")
    words.add_argument("kind", nargs="?", choices=sorted(BY_NAME))
    words.add_argument("--list", action="store_true")
    for size in ("frames", "systems", "types", "messages"):
        words.add_argument(f"--{size}", type=int)
    given = vars(words.parse_args())
    kind, wants_list = given.pop("kind"), given.pop("list")
    if wants_list or not kind:
        for each, sizes in KINDS.items():
            print(f"{each.__name__}: {each.__doc__} {' '.join(f'--{key} {n}' for key, n in sizes.items())}")
        return
    sys.stdout.buffer.write(made(kind, **given))


if __name__ == "__main__":
    main()
