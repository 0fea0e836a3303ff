"""Calls that run side by side."""
import collections
import queue
import threading


class _Job:
    def __init__(self, item):
        self.item = item
        self.result = self.fault = None
        self.is_done = threading.Event()


def mapped(call, items, threads):
    """The results of a call of each item, in order. So many are made at once, and twice as many are begun before they are wanted."""
    jobs, waiting = queue.SimpleQueue(), collections.deque()

    def work():
        while job := jobs.get():
            try:
                job.result = call(job.item)
            except BaseException as fault:  # raised where the result is wanted
                job.fault = fault
            job.is_done.set()

    for _ in range(threads):
        threading.Thread(target=work, daemon=True).start()
    for item in items:
        waiting.append(_Job(item))
        jobs.put(waiting[-1])
        if len(waiting) > 2 * threads:
            yield _result(waiting.popleft())
    while waiting:
        yield _result(waiting.popleft())
    for _ in range(threads):
        jobs.put(None)


def _result(job):
    job.is_done.wait()
    if job.fault:
        raise job.fault
    return job.result
