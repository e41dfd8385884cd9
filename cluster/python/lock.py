"""Takes a lock of a cluster on this machine, holds it for a second, and lets it go: `lock.py PORT LOCK NAME`.

The lock is a name in table 1, in which nothing but names stands. Its value says who has it, and until when: after that
time another one takes it. So the clocks of those who want it have to agree by less than they wait. The version of the
lock is a *fencing token*: whoever holds it later has a greater one. A store that takes no write with a smaller token
than it has seen is safe from those who think that they still have it.
"""

import sys
import time

from sevunthi import Client, Mismatch, Names, Target, Unknown

TABLE = 1


def take(names: Names, lock: bytes, name: str, seconds: float) -> int:
    """Waits until it has the lock, and gives the token."""
    while True:
        mine = f"{name} {time.time() + seconds}".encode()
        try:
            return names.put_if_absent(lock, mine)
        except Mismatch as there:
            if float((there.value or b"0").split()[-1]) < time.time():
                try:
                    return names.put_if(lock, there.version, mine)
                except (Mismatch, Unknown):
                    pass
        except Unknown:
            found = names.get(lock)
            if found.value == mine:
                return found.version
        time.sleep(0.02)


def let_go(names: Names, lock: bytes, token: int) -> None:
    """Lets it go, if it is still held under this token."""
    try:
        names.delete_if(lock, token)
    except (Mismatch, Unknown):
        pass  # another one has it, or it ends by itself


if __name__ == "__main__":
    port, lock, name = int(sys.argv[1]), sys.argv[2].encode(), sys.argv[3]
    with Client(Target.on(port=port)) as client:
        names = Names(client, TABLE)
        token = take(names, lock, name, 5.0)
        print(f"{name} has the lock, with token {token}", flush=True)
        time.sleep(1)
        let_go(names, lock, token)
