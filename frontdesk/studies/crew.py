"""Hands out work to a process on each processor, and goes on where one of them is ended."""

import os
import signal
import sys
from collections import deque
from multiprocessing.connection import Connection, Pipe, wait

WAITING = 2  # chunks that a hand has before it, so that it never waits for the next


def processors():
    return len(os.sched_getaffinity(0))


class Hand:
    """A process of its own: it takes chunks from its pipe, and sends back what each comes to."""

    def __init__(self, work, others):
        self.pipe, far = Pipe()
        self.chunks = deque()
        self.process = os.fork()
        if self.process == 0:
            for pipe in (self.pipe, *(other.pipe for other in others)):
                pipe.close()
            labour(far, work)
        far.close()

    def give(self, chunk):
        """One that has ended already takes it too: that it has, is found out when its answers are taken."""
        self.chunks.append(chunk)
        try:
            self.pipe.send_bytes(b"%d %d" % chunk)
        except OSError:
            pass

    def taken(self):
        """The chunk that is done, and what it came to; None for that where the process has ended over it."""
        try:
            answer = self.pipe.recv_bytes()
        except (EOFError, OSError):
            answer = None
        return self.chunks.popleft(), answer

    def dismiss(self):
        self.pipe.close()
        os.waitpid(self.process, 0)


def labour(pipe: Connection, work):
    """A hand's whole life; Ctrl-C is for the one who hands out, and the pipe's end tells that nothing more comes."""
    status = 1
    try:
        signal.signal(signal.SIGINT, signal.SIG_IGN)
        work.begin()
        while True:
            try:
                start, stop = map(int, pipe.recv_bytes().split())
            except EOFError:
                status = 0
                break
            pipe.send_bytes(work.done(start, stop))
    except BrokenPipeError:
        pass
    except MemoryError:
        pass
    finally:
        sys.stderr.flush()
        os._exit(status)


def share_out(chunks, work, hands=None):
    """Yields (chunk, answer) as they come, a chunk being (start, stop). Where a hand ends over a chunk, that is tried once more one by one, and where one ends
    over a single one twice, its answer is None."""
    chunks, crew, tried = deque(chunks), [], set()
    try:
        for _ in range(min(hands or processors(), len(chunks))):
            crew.append(Hand(work, crew))
        for hand in WAITING * crew:
            if chunks:
                hand.give(chunks.popleft())
        while any(hand.chunks for hand in crew):
            for pipe in wait([hand.pipe for hand in crew if hand.chunks]):
                hand = next(hand for hand in crew if hand.pipe is pipe)
                chunk, answer = hand.taken()
                if answer is not None or chunk in tried:
                    yield chunk, answer
                if answer is None:
                    hand = relieved(hand, () if chunk in tried else chunk, crew, chunks, work)
                    tried.add(chunk)
                while chunks and len(hand.chunks) < WAITING:
                    hand.give(chunks.popleft())
    finally:
        for hand in crew:
            hand.dismiss()


def relieved(hand, chunk, crew, chunks, work):
    """Another hand in the place of one that has ended; what it had before it is handed out anew, the chunk that it ended over one by one."""
    chunks.extendleft(reversed(hand.chunks))
    chunks.extendleft((at, at + 1) for at in reversed(range(*chunk or (0, 0))))
    hand.dismiss()
    crew.remove(hand)
    crew.append(Hand(work, crew))
    return crew[-1]
