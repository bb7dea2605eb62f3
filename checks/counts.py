#!/usr/bin/env python3
"""Eight clients at four workers say a known number of lines, one after another, and the events that the server prints for its
workers at its end are compared with them. Of each client its worker opened it, said each of its lines and shut it; what the
worker counts besides are drains, of which there is one at least for each answer, and a few at most for each turn. Half of the
clients leave by themselves, the others are there when the server stops. Run by hand, behind `make build`:

    checks/counts.py [LINES]

LINES is how many lines the first client says, 50 if left out; each further one says so many more. $LOBBY_MAIN names another build
of the server."""
import sys

from lobby_server import Difference, Server, greeted, run

WORKERS, CLIENTS = 4, 8
# A turn of a client that waits for each answer says one line, and drains until nothing comes. It gets a turn more where its worker
# is woken or its socket is told of again.
TURNS_A_LINE, DRAINS_A_TURN, SPARE = 3, 2, 20


def counts(lines="50"):
    said = [int(lines) * (client + 1) for client in range(CLIENTS)]
    with Server(WORKERS, []) as server:
        clients = [greeted(server) for _ in said]
        for client, count in zip(clients, said):
            for _ in range(count):
                client.send("PING\n")
                client.expect("PONG\n")
        for client in clients[::2]:
            client.send("EXIT\n")
            client.expect_end()
        server.stop()
    for worker, count in enumerate(server.counts):
        own = range(worker, CLIENTS, WORKERS)
        # Each is opened and shut. EXIT is a line too.
        events = sum(2 + said[client] + (client % 2 == 0) for client in own)
        answers = sum(1 + said[client] for client in own)
        least, most = events + answers, events + DRAINS_A_TURN * (TURNS_A_LINE * answers + SPARE)
        print(f"worker {worker}: {count} events, of which {events} were asked for and {count - events} are drains")
        if not least <= count <= most:
            raise Difference(f"worker {worker} counts {count} events, not {least} to {most}")
    print(f"{CLIENTS} clients at {WORKERS} workers said {sum(said)} lines, and each is counted where it was said")


if __name__ == "__main__":
    run(counts, sys.argv[1:])
