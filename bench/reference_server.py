"""Serves a room over WebSocket by another implementation in Python, whose folder is the first argument.

    python3 bench/reference_server.py IMPLEMENTATION serve FOLDER ROOM HOST:PORT TURNS

The words behind the folder are those of `room serve`; the turns are not counted. The implementation has a module
`server` with a class `Server` (`opened`, `frame`, `gone`, each answering what goes out) and a module `files` with
`FolderDisk`. It is for trying the whiteboard and the scripts beside this one.
"""
import os
import sys

from hub import Hub


def main():
    implementation, _, folder, room, address = sys.argv[1:6]
    sys.path.insert(0, implementation)
    from files import FolderDisk
    from server import Server
    os.makedirs(folder, exist_ok=True)
    Hub(Server(FolderDisk(folder), 0, room, [10 ** 12, 10 ** 6]), address).run()


main()
