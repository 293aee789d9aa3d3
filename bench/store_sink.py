#!/usr/bin/env python3
"""What a request costs a PostgreSQL sink in the store's own database, where its delivery is noted in its transaction, and in another.

    bench/store_sink.py PROGRAM [REQUESTS]

An instance over a store delivers so many requests (100) of 20 series to a sink in another database of the same server, and then to
one in the store's: of each the statements and the bytes of WAL a request by pg_stat_statements, and of these what notes the
delivery. What a commit writes is in neither. Needs PostgreSQL with its contributed modules.
"""
import os
import subprocess
import sys
import tempfile

import measuring  # noqa: F401, by which the tests' modules are found
from testing.loopback import free_port
from testing.servers import Server
from testing.service import JSON, Service, ask, in_json, wait_until

SERIES = 20
OF_SINK = "query like '%totxegun.%' and query not like 'create %'"
OF_NOTE = "query like '%totxegun_store.delivered%' and query like 'insert%'"


def deliver(program: str, server: Server, folder: str, sink: str, requests: int) -> list[list[float]]:
    """Statements and bytes of WAL of a request, and of what notes its delivery."""
    store = f"store_for_{sink}"
    server.ask(f"create database {store}")
    server.ask("create database apart")
    address = f"postgres://postgres@127.0.0.1:{server.port}"
    subprocess.run([program, "store", "init", f"{address}/{store}", "--shards", "1"], check=True, capture_output=True)
    where = store if sink == "together" else "apart"
    service = Service(program, f"{folder}/{sink}", f"{address}/{where}", "--store", f"{address}/{store}", "--instance", "a", "--peer",
                      f"127.0.0.1:{free_port()}", "--store-copies", "1", "--flush-interval", "1h")
    service.start()
    service.wait_ready()

    def post(number: int) -> None:
        points = [(f"m{series}", 20 * number + 1, 20 * number + 11, 5) for series in range(SERIES)]
        status, text = ask(service.listen, "POST", "/v1/metrics", in_json(points), {"Content-Type": JSON, "x-sender": "A"})
        if status != 200 or service.order("/flush") != 200 or not wait_until(service.is_drained):
            sys.exit(f"{status} {text!r} {service.last_lines()}")

    wait_until(lambda: ask(service.listen, "POST", "/v1/metrics", b"{}", {"Content-Type": JSON, "x-sender": "A"})[0] == 200)
    post(0)
    server.ask("select pg_stat_statements_reset()")
    for number in range(1, requests + 1):
        post(number)
    taken = server.run("psql", f"postgresql://postgres@127.0.0.1:{server.port}/{where}", "-XAtqc",
                       "select count(*) from totxegun.requests")
    # Those of the first flush are not among them.
    requests = int(taken) * requests // (requests + 1)
    query = "select coalesce(sum(calls), 0), coalesce(sum(wal_bytes), 0) from pg_stat_statements where "
    found = [[int(one) / requests for one in server.ask(query + of).split("|")] for of in (OF_SINK, OF_NOTE)]
    service.end()
    return found


def main(words: list[str]) -> None:
    program, requests = os.path.abspath(words[0]), int((words[1:] + ["100"])[0])
    server = Server()
    with tempfile.TemporaryDirectory() as folder:
        try:
            server.make(["shared_preload_libraries = 'pg_stat_statements'"])
            server.start()
            server.ask("create extension pg_stat_statements")
            for sink, what in (("apart", "in another database"), ("together", "in the store's database")):
                (statements, wal), (notes, of_notes) = deliver(program, server, folder, sink, requests)
                print(f"{what}: {statements + notes:.1f} statements and {wal + of_notes:.0f} bytes of WAL a request; of these "
                      f"{notes:.1f} and {of_notes:.0f} note the delivery", flush=True)
        finally:
            server.close()


if __name__ == "__main__":
    if not 2 <= len(sys.argv) <= 3:
        sys.exit(__doc__.split("\n\n")[1].strip())
    main(sys.argv[1:])
