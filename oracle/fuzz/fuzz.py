"""Plays rounds of random input against the built programs, some side by side, until so many cases or so many seconds are over. run.sh says
how it is run."""

import multiprocessing
import os
import random
import shutil
import signal
import sys
import time

import frames
import images
import lines
import play
import replies

# Of each kind of round: which programs it wants, how many cases it has, and how often it comes.
ROUNDS = {
    "frames to a server": (frames.to_server, ("server",), 2000, 20),
    "frames to a surrogate": (frames.to_surrogate, ("server", "surrogate"), 400, 8),
    "lines": (lines.to_client, ("server", "client"), 4000, 20),
    "replies to a client": (replies.to_client, ("client",), 1000, 4),
    "images": (images.open_images, ("server",), 60, 6),
    "words": (images.start_with_words, ("server", "surrogate", "client"), 40, 2),
}
FINDINGS = 5  # after so many it ends


def round_of(seed, number, kinds):
    """The kind of a round. The first ones are of all kinds."""
    if number < len(kinds):
        return kinds[number]
    return random.Random(f"{seed}/{number}").choices(kinds, [ROUNDS[it][3] for it in kinds])[0]


def play_round(seed, number, kind, programs, work):
    """Plays one round in a folder of its own: how many cases it had, and a finding or nothing."""
    folder = os.path.join(work, str(number))
    os.mkdir(folder)
    try:
        return ROUNDS[kind][0](random.Random(f"{seed}/{number}/{kind}"), programs, folder, ROUNDS[kind][2]), None
    except play.Wrong as wrong:
        return 0, f"round {number} of seed {seed}, {kind}: {wrong}"
    finally:
        play.end_all()
        shutil.rmtree(folder)


def plays(taken, until, seed, kinds, count, programs, work, told):
    """What one process does: it takes the next round again and again."""
    for it in play.SIGNALS:
        signal.signal(it, lambda number, _: sys.exit(128 + number))
    cases, findings = dict.fromkeys(ROUNDS, 0), []
    play.end_at[0] = until
    try:
        while time.monotonic() < until:
            with taken.get_lock():
                number, planned = taken[0], taken[1]
                kind = round_of(seed, number, kinds)
                if number >= len(kinds) and planned >= count or taken[2] >= FINDINGS:
                    break
                taken[0], taken[1] = number + 1, planned + ROUNDS[kind][2]
            done, finding = play_round(seed, number, kind, programs, work)
            cases[kind] += done
            if finding:
                print(f"FINDING: {finding}", flush=True)
                findings.append(finding)
                with taken.get_lock():
                    taken[2] += 1
    finally:
        play.end_all()
    told.put((cases, dict(play.seen), len(findings)))


def tell(seed, seconds, results):
    """The figures of all processes."""
    for kind in ROUNDS:
        print(f"{kind:24} {sum(it[0][kind] for it in results):9,}")
    for name in sorted({name for it in results for name in it[1]}):
        print(f"    {name:36} {sum(it[1].get(name, 0) for it in results):9,}")
    found = sum(it[2] for it in results)
    total = sum(sum(it[0].values()) for it in results)
    print(f"{total:,} cases of seed {seed} in {seconds:.0f} s, {found} findings")
    return found


def main(count, seconds, seed, only):
    programs = {name: os.environ.get(name.upper()) for name in ("server", "surrogate", "client")}
    work, jobs = os.environ["WORK"], int(os.environ.get("JOBS") or os.cpu_count())
    missing = [name for name, it in programs.items() if not it]
    kinds = [it for it in ROUNDS if it == "words" or all(programs[name] for name in ROUNDS[it][1])]
    for it in ROUNDS:
        if it not in kinds or set(missing) & set(ROUNDS[it][1]) or it == "images" and "client" in missing:
            print(f"{it}: without {' and '.join(missing)} " + ("only what the others do" if it in kinds else "not tried"))
    print(f"seed {seed}", flush=True)
    begun = time.monotonic()
    if only is not None:
        cases, finding = play_round(seed, only, round_of(seed, only, kinds), programs, work)
        print(f"{cases} cases" if finding is None else f"FINDING: {finding}")
        return finding is not None
    taken, told = multiprocessing.Array("q", 3), multiprocessing.Queue()
    given = (taken, begun + seconds, seed, kinds, count, programs, work, told)
    workers = [multiprocessing.Process(target=plays, args=given) for _ in range(jobs)]

    def stop(number, _):
        for it in workers:
            it.terminate()
        for it in workers:
            it.join()
        os._exit(128 + number)

    for it in workers:
        it.start()
    for it in play.SIGNALS:
        signal.signal(it, stop)
    results = [told.get() for _ in workers]
    for it in workers:
        it.join()
    return tell(seed, time.monotonic() - begun, results) > 0


if __name__ == "__main__":
    words = [int(it) for it in sys.argv[1:]]
    sys.exit(main(words[0], words[1], words[2], words[3] if len(words) > 3 else None))
