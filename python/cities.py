"""One thread sets values on a seat. When it has ended, another one goes on with that seat: it looks a key up, and walks the pairs in order."""

import threading

import bwtree

with bwtree.Tree(seats=2, keys=100) as tree, tree.seat() as seat:

    def set_all() -> None:
        seat.update({b"Bern": b"Switzerland", b"Vienna": b"Austria", b"Paris": b"France", b"Oslo": b"Norway"})

    thread = threading.Thread(target=set_all)
    thread.start()
    thread.join()

    print("Bern:", seat[b"Bern"].decode())
    for key, value in seat.pairs():
        print(f"{key.decode()}, {value.decode()}")
