"""A state that is handed to all who look at it."""
import queue
import threading

WAITING = 8  # states that wait for one who looks


class Publisher:
    """Hands what `state_json` gives to all who look, each time that it is published."""

    def __init__(self) -> None:
        self.queues: set[queue.Queue[str]] = set()
        self.queues_lock = threading.Lock()
        self.is_over = threading.Event()

    def state_json(self) -> str:
        """The state, as JSON."""
        raise NotImplementedError

    def silent_since(self) -> str:
        """Since when what is followed has not answered, or nothing."""
        return ''

    def run(self) -> None:
        """Follows what is told, until it is over."""
        raise NotImplementedError

    def stop(self) -> None:
        """Ends that."""
        self.is_over.set()

    def subscribe(self) -> queue.Queue[str]:
        found: queue.Queue[str] = queue.Queue(WAITING)
        with self.queues_lock:
            self.queues.add(found)
        found.put(self.state_json())
        return found

    def unsubscribe(self, found: queue.Queue[str]) -> None:
        with self.queues_lock:
            self.queues.discard(found)

    def publish(self) -> None:
        """Hands the state to all; who is slow misses what is older."""
        told = self.state_json()
        with self.queues_lock:
            for found in self.queues:
                while True:
                    try:
                        found.put_nowait(told)
                        break
                    except queue.Full:
                        try:
                            found.get_nowait()
                        except queue.Empty:
                            pass
