"""A small game against an engine: guests order, the waiter carries two dishes a frame, and each guest who is served pays.
Who posts what in a frame follows from what the frame before was answered.

    python3 game.py PROGRAM [WORKERS]
"""
import sys
from pathlib import Path
from typing import NamedTuple

from msgrun import Engine, Refused


class Guest(NamedTuple):
    seat: int
    price: int


GUESTS = [Guest(seat, price) for seat, price in enumerate([7, 12, 5, 9])]


def play(engine, frames):
    served = []
    for number in range(1, frames + 1):
        orders = [("order", guest) for guest in GUESTS if (number + guest.seat) % 3 == 0]
        frame = engine.frame(orders + [("paid", guest.price) for guest in served])
        served = frame.read("waiter", "cooked")
        read, waiting = frame.replies("waiter")
        print(f"frame {frame['frame']}: {len(orders)} order, {[guest.seat for guest in served]} are served, "
              f"{waiting['n']} dishes wait, {read['missed']} went cold, till {frame['resources']['till']}")


def main():
    program, workers = sys.argv[1], int(sys.argv[2]) if len(sys.argv) > 2 else 1
    with Engine(program, Path(__file__).with_name("shop.json"), workers) as engine:
        play(engine, 12)
        try:
            engine.frame([("ordre", 1)])
        except Refused as refused:
            print(f"refused: {refused.answer['name']} at {refused.answer['at']}")
    for reader in engine.readers():
        print(f"{reader['system']} of {reader['type']}: got {reader.get('got', 0)}, missed {reader.get('missed', 0)}, "
              f"unread {reader['unread']} of {reader['written']}")


main()
