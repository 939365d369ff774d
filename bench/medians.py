"""The tables of bench/run and bench/turns: medians.py run|turns.

A line of the input is the run, the shape, its bytes, the folds and the microseconds of three calls, at one of the places of the code. What a run says
of a call is the geometric mean over the places; ratios and changes are of what one run says, and the table has their medians over the runs. A run that
lacks a place would not be comparable, and ends it."""
import statistics
import sys

lines = {}  # shape, bytes and folds; then the run; then the times of each call, place by place
for line in sys.stdin:
    run, shape, size, folds, *times = line.rstrip("\n").split("\t")
    lines.setdefault((shape, size, folds), {}).setdefault(run, []).append([float(t) for t in times])
places = {len(there) for runs in lines.values() for there in runs.values()}
if len(places) != 1:
    sys.exit("medians.py: no run, or one that did not come to its end")


def said(there):
    return [statistics.geometric_mean(times) for times in zip(*there)]


def middle(runs, figure):
    return statistics.median(figure(*times) for times in runs)


def ends(runs, figure):
    figures = [figure(*times) for times in runs]
    return min(figures), max(figures)


def table_of_run():
    print("| Shape                  | Bytes | Folds | dpb_list | baseline | ratio | range | counting | ratio |\n|---|---|---|---|---|---|---|---|---|")
    worst = {}
    for (shape, size, folds), runs in lines.items():
        runs = [said(there) for there in runs.values()]
        ratio = middle(runs, lambda d, b, c: d / b)
        print("| %-22s | %5s | %s | %8.2f | %8.2f | %5.2f | %.2f to %.2f | %8.2f | %5.2f |" % (
            shape, size, folds, middle(runs, lambda d, b, c: d), middle(runs, lambda d, b, c: b), ratio, *ends(runs, lambda d, b, c: d / b),
            middle(runs, lambda d, b, c: c), middle(runs, lambda d, b, c: d / c)))
        kind = "reading alone" if shape.startswith("reading") else "from text to listing"
        worst[kind] = max(worst.get(kind, (0, "")), (ratio, "%s, %s folds" % (shape, folds)))
    print()
    for kind, goal in (("from text to listing", "1.5"), ("reading alone", "3")):
        print("largest ratio against the baseline, %s: %.2f (%s; goal %s)" % (kind, *worst[kind], goal))


def table_of_turns():
    print("| Shape                  | Folds |   before |    after |   change | least | most | ratio before | after |\n|---|---|---|---|---|---|---|---|---|")
    for (shape, _, folds), runs in lines.items():
        runs = [said(there) for there in runs.values()]
        change = lambda b, a, c: (a / b - 1) * 100
        print("| %-22s | %s | %8.2f | %8.2f | %+6.1f %% | %+5.1f | %+5.1f | %.2f | %.2f |" % (
            shape, folds, middle(runs, lambda b, a, c: b), middle(runs, lambda b, a, c: a), middle(runs, change), *ends(runs, change),
            middle(runs, lambda b, a, c: b / c), middle(runs, lambda b, a, c: a / c)))


print("medians of %d runs, in microseconds a call\n" % min(len(runs) for runs in lines.values()))
{"run": table_of_run, "turns": table_of_turns}[sys.argv[1]]()
