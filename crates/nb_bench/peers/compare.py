#!/usr/bin/env python3
"""Runs the map and its peers by turns, and prints for each line of a workload the best and the middle of what they measure.

    compare.py [--seconds S] [--rounds N] [--threads 1,2,4] [--workloads ABCDE] [--keys WHICH] [--live N] [--calls N] [--limit S]
               [--real-time] [PEER..]

A cell is the line's last number divided by its OPS: nanoseconds a call, where several threads work at once the machine's time for one
call, not a thread's; in the line `memory` of F, bytes a key. `full` says that the map refused a new key in one of the runs. A run that
hasn't ended after --limit seconds, or that fails, is left out, and standard error says so. With no peers named, all that are built take
part. A peer NAME=PATH is the program at this path, such as the `nb_bench` of another commit. With --real-time, for root, Linux gives each
thread a processor of its own from the start, if there are as many; else two may share one for some milliseconds, as the longest puts
show."""
import argparse, os, statistics, subprocess, sys

HERE = os.path.dirname(os.path.abspath(__file__))
OUT = os.path.join(HERE, 'out')
JAVA = ['java', '-cp', OUT + ':/usr/share/java/jctools-core.jar', 'Bench']
NB = [os.path.join(HERE, '..', 'out', 'nb_bench')]

# a peer: its words before those of the run, and those after them
PEERS = {'nb': (NB, []), 'doubling': (NB, []), 'tuned': (NB, ['--reprobes', '18', '--chunk', '64'])}
PEERS |= {name: ([os.path.join(OUT, name)], []) for name in ['limit', 'tbb', 'cuckoo', 'feldman', 'michael', 'lfht', 'dash', 'mutex']}
PEERS |= {name: (JAVA + [name], []) for name in ['chm', 'nbhml']}
CLASSES = {'chm': 'Bench.class', 'nbhml': 'Nbhml.class'}

# which run the map with tables that double, in D alone
DOUBLING = ['doubling', 'tuned']


def is_built(peer):
    return os.path.exists(os.path.join(OUT, CLASSES[peer]) if peer in CLASSES else PEERS[peer][0][0])


def doubling(live):
    """The words for sixteen tables that double, the last of 2^17 slots or of twice as many as there are keys."""
    last = max(17, (2 * live - 1).bit_length())
    return ['--plan', ','.join(str(exponent) for exponent in range(last - 15, last + 1))]


def lines_of(peer, words):
    """What a run measures: by the name of each line the number for a call, and whether the map was full."""
    before, after = PEERS[peer]
    before = ['chrt', '--fifo', '1'] * given.real_time + before
    try:
        ran = subprocess.run(before + words + after, stdout=subprocess.PIPE, text=True, check=True, timeout=given.limit)
    except subprocess.TimeoutExpired:
        print(f'{peer} {" ".join(words)}: stopped after {given.limit:g} seconds', file=sys.stderr, flush=True)
        return {}
    except subprocess.CalledProcessError as error:
        print(f'{peer} {" ".join(words)}: left out, {error}', file=sys.stderr, flush=True)
        return {}
    lines = {}
    for line in ran.stdout.splitlines():
        _, what, _, calls, number, *more = line.split()
        lines[what] = (int(number) / max(1, int(calls)), 'full' in more)
    return lines


def shown(number):
    return f'{number:.1f}' if number < 1000 else f'{number:.0f}'


def cell(runs):
    if not runs:
        return ''
    numbers = [number for number, _ in runs]
    full = ' full' if any(full for _, full in runs) else ''
    return f'{shown(min(numbers))} ({shown(statistics.median(numbers))}){full}'


words = argparse.ArgumentParser(description=__doc__, formatter_class=argparse.RawDescriptionHelpFormatter)
words.add_argument('--seconds', default='0.5')
words.add_argument('--rounds', type=int, default=5)
words.add_argument('--threads', default='1,2,4')
words.add_argument('--workloads', default='ABCDE')
words.add_argument('--limit', type=float)
words.add_argument('--real-time', action='store_true')
for option in ['--keys', '--live', '--calls']:
    words.add_argument(option)
words.add_argument('peers', nargs='*')
given = words.parse_intermixed_args()
for peer in DOUBLING:
    PEERS[peer] = (NB, PEERS[peer][1] + doubling(int(given.live or 0)))
peers = given.peers or [peer for peer in PEERS if is_built(peer) and (peer not in DOUBLING or 'D' in given.workloads)]
for at, peer in enumerate(peers):
    if '=' in peer:
        peers[at], path = peer.split('=', 1)
        PEERS[peers[at]] = ([path], [])
unknown = [peer for peer in peers if peer not in PEERS]
if unknown:
    sys.exit(f'no peer {unknown[0]}: none of {", ".join(PEERS)}')
options = []
for option in ['keys', 'live', 'calls']:
    if getattr(given, option):
        options += ['--' + option, getattr(given, option)]

print(f'{"workload":>8} threads ' + ' '.join(f'{peer:>19}' for peer in peers) + '   best (middle)')
for workload in given.workloads:
    for threads in given.threads.split(','):
        runs = {}
        for _ in range(given.rounds):
            for peer in peers:
                if peer in DOUBLING and workload != 'D':
                    continue
                for what, number in lines_of(peer, [workload, threads, given.seconds] + options).items():
                    runs.setdefault(what, {}).setdefault(peer, []).append(number)
        for what, by_peer in runs.items():
            cells = [cell(by_peer.get(peer, [])) for peer in peers]
            print(f'{what:>8} {threads:>7} ' + ' '.join(f'{c:>19}' for c in cells), flush=True)
