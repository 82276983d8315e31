"""times: compares the processor time of a program's runs at a large and at a small count.

What counts is the least of five runs, so that other programs on the machine disturb little. All runs go equally many rounds, so many that the
smaller takes well above the program's start."""
import resource
import subprocess
import sys


def spent():
    """The processor time of the runs so far."""
    used = resource.getrusage(resource.RUSAGE_CHILDREN)
    return used.ru_utime + used.ru_stime


def seconds(program, words, answer, text=b""):
    """The least processor time of five runs with these words over this input, each of which prints this answer."""
    best = float("inf")
    for _ in range(5):
        before = spent()
        run = subprocess.run([program, *map(str, words)], input=text, capture_output=True)
        best = min(best, spent() - before)
        if run.returncode != 0 or run.stdout != answer:
            sys.exit(f"{' '.join(map(str, words))}: the run ended with status {run.returncode} or another answer")
    return best


def compare(program, task, rounds_of, counts, most, answer, what):
    """Prints the times and their ratio for each name in rounds_of; whether a ratio is above the most that is wanted.

    The words are the task, the name, the count and the rounds. answer tells from a name, a count and the rounds what the program is to print."""
    over = False
    for name, rounds in rounds_of.items():
        small, large = (seconds(program, (task, name, count, rounds), f"{answer(name, count, rounds)}\n".encode()) for count in counts)
        over = over or large > most * small
        print(f"{name}, {rounds} rounds: {counts[0]} {what} {small:.3f} s; {counts[1]} {what} {large:.3f} s; ratio {large / small:.1f}, at most {most}", flush=True)
    return over
