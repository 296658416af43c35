"""Ends a run of `rt ci` once the tasks that are at work have ended, when it is asked to by a signal.

A run that is ended at once, for a change that has come, loses what is at work then: some minutes of each processor. What a task has come to
rt keeps, for a run in another folder too, which waits for it where it comes to the same crate while that is at work. So a run there, over
the sources with the change, is begun as soon as this one is asked.
"""
import os
import signal
import sys
import threading

# How the run is asked, and the status that it ends with.
ASKED, STATUS = signal.SIGUSR1, 3


class Handover:
    """How many tasks are at work, and whether no further one is to begin."""

    def __init__(self, rt):
        self.rt, self.at_work, self.is_asked, self.turn = rt, 0, False, threading.Lock()

    def await_signal(self):
        """Waits for the signal in a thread of its own: a handler runs in the first thread alone, which may be about to wait for a task."""
        signal.sigwait({ASKED})
        self.ask()

    def ask(self):
        """Has no further task begin, and the run end where none is at work."""
        self.is_asked = True
        self.look()

    def look(self):
        """Ends the run where it is asked to end and no task is at work."""
        with self.turn:
            if self.is_asked and not self.at_work:
                print("rt: ended, as it was asked to: what was at work is done, and the rest is for another run", flush=True)
                with self.rt.ending():
                    pass
                sys.stdout.flush()
                os._exit(STATUS)

    def begins(self):
        """Counts a task as at work; does not come back where none is to begin any more."""
        with self.turn:
            self.at_work += not self.is_asked
            waits = self.is_asked
        if waits:
            self.look()
            threading.Event().wait()

    def ends(self):
        """Counts a task as ended."""
        with self.turn:
            self.at_work -= 1
        if self.is_asked:
            self.look()

    def counted(self, tasks):
        """The tasks, each counted while it is at work."""

        def call_of(call):
            def run(given, jobs):
                self.begins()
                try:
                    return call(given, jobs)
                finally:
                    self.ends()

            return run

        return {name: (*task, call_of(call)) for name, (*task, call) in tasks.items()}


def begin(rt):
    """Has that rt's tasks counted, and its run end so when it is asked to."""
    handover, in_lanes = Handover(rt), rt.in_lanes
    rt.in_lanes = lambda tasks: in_lanes(handover.counted(tasks))
    # Threads and processes that are started from here on leave the signal to that thread.
    signal.pthread_sigmask(signal.SIG_BLOCK, {ASKED})
    threading.Thread(target=handover.await_signal, daemon=True).start()
