"""Starts a hub: python3 -m emfstore_hub --folder STORE --policy FILE --socket PATH [--program emftools] [--users FILE] [--counters PORT]."""
import argparse
import asyncio
import grp
import logging
import os
import signal
import sys

from emfstore_hub.counters import counters_at
from emfstore_hub.frames import MOST_FRAME, MOST_HEAD
from emfstore_hub.hub import Bounds, Hub
from emfstore_hub.program import WORDS, Command, Program

log = logging.getLogger("emfstore_hub")


def arguments() -> argparse.Namespace:
    parser = argparse.ArgumentParser(prog="emfstore_hub", description="Serves one store to many users, each turn as a whole.")
    parser.add_argument("--folder", required=True, help="the folder of the store")
    parser.add_argument("--policy", required=True, help="a file of grants, as alice:admin, by lines or commas; read anew at SIGHUP")
    parser.add_argument("--socket", required=True, help="the Unix socket to listen at")
    parser.add_argument("--group", help="the group that may connect; else the hub's own account alone")
    parser.add_argument("--program", default=os.environ.get("EMFTOOLS", "emftools"), help="emftools, by its path or as PATH has it")
    parser.add_argument("--users", help="a file of lines 'ACCOUNT USER', where an account isn't its user's name")
    parser.add_argument("--counters", type=int, metavar="PORT", help="a port of the loopback address for Prometheus")
    parser.add_argument("--most-frame", type=int, default=MOST_FRAME, help="bytes of a frame at most")
    parser.add_argument("--seconds", type=float, default=60.0, help="how long a client may take to send a frame, and to read an answer")
    return parser.parse_args()


def users_in(path: str | None) -> dict[str, str]:
    """The users of accounts, by a file's lines."""
    if path is None:
        return {}
    with open(path, encoding="utf-8") as file:
        return dict(line.split() for line in file if line.split("#")[0].strip())


async def listen(hub: Hub, path: str, group: str | None) -> asyncio.Server:
    """Listens at the path, which a hub that died may have left behind."""
    if os.path.exists(path):
        os.unlink(path)
    mask = os.umask(0o117)
    try:
        server = await asyncio.start_unix_server(hub.serve, path, limit=MOST_HEAD)
    finally:
        os.umask(mask)
    if group is not None:
        os.chown(path, -1, grp.getgrnam(group).gr_gid)
    return server


async def main() -> int:
    given = arguments()
    program = Program(Command(given.program, given.folder, given.policy))
    bounds = Bounds(given.most_frame, 4 * given.most_frame, send_seconds=given.seconds, read_seconds=given.seconds)
    hub = Hub(program, given.folder, bounds, users_in(given.users), counters_at(given.counters))
    loop = asyncio.get_running_loop()
    loop.add_signal_handler(signal.SIGHUP, program.renew)
    for stop in (signal.SIGTERM, signal.SIGINT):
        loop.add_signal_handler(stop, program.end)
    server = await listen(hub, given.socket, given.group)
    log.info("listening at %s", given.socket)
    status = await program.run()
    server.close()
    os.unlink(given.socket)
    if status > 1:
        log.error("%s", WORDS.get(status, f"the program ended by {status}"))
    return 0 if status in (0, 1) else status


if __name__ == "__main__":
    logging.basicConfig(level=logging.INFO, format="%(asctime)s %(levelname)s %(message)s", stream=sys.stderr)
    sys.exit(asyncio.run(main()))
