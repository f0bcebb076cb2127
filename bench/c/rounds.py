"""How long works take: the best of several rounds, with works that are compared in turn."""
import gc
import time

ROUND_SECONDS = 5e-3


def seconds_of_runs(work, inputs, runs):
    start = time.perf_counter()
    for _ in range(runs):
        for one in inputs:
            work(one)
    return time.perf_counter() - start


def runs_of_round(work, inputs):
    """How many runs over all inputs make a round. The run that tells it warms the caches."""
    seconds_of_runs(work, inputs, 1)
    return 1 + int(ROUND_SECONDS / (seconds_of_runs(work, inputs, 1) + 1e-9))


def time_in_turn(works, inputs, rounds):
    """The least seconds that each work takes for an input. No garbage is collected meanwhile, as `timeit` has it."""
    gc.collect()
    gc.disable()
    try:
        runs = [runs_of_round(work, inputs) for work in works]
        least = [float("inf")] * len(works)
        for _ in range(rounds):
            for index, work in enumerate(works):
                seconds = seconds_of_runs(work, inputs, runs[index]) / runs[index] / len(inputs)
                least[index] = min(least[index], seconds)
    finally:
        gc.enable()
    return least


def print_row(cells):
    """A row of a table in Markdown. A cell that is None is empty."""
    print("| " + " | ".join("" if cell is None else str(cell) for cell in cells) + " |", flush=True)


def print_head(cells):
    print_row(cells)
    print("|" + "---|" * len(cells))
