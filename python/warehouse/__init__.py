"""A client of the warehouse program: sessions with typed replies, fleets, and the tools that users run.

    python3 -m warehouse SUBCOMMAND --help
"""
from .fleet import Fleet, Stop, by_number, hold, nearest_first
from .queue import Queue
from .replies import (Accepted, Arrived, Clock, Closed, Entry, Go, Lost, Parked, Refused, Replaced, Reply, Rested, Stopped, Told,
                      Took, Visited)
from .session import CoreDied, Session, SessionError, Vehicles, WrongReply
from .texts import Fault, Instance, Order, read_arrivals, read_file, read_instance, read_log, read_orders

__all__ = [
    'Accepted', 'Arrived', 'Clock', 'Closed', 'CoreDied', 'Entry', 'Fault', 'Fleet', 'Go', 'Instance', 'Lost', 'Order',
    'Parked', 'Queue', 'Refused', 'Replaced', 'Reply', 'Rested', 'Session', 'SessionError', 'Stop', 'Stopped', 'Told',
    'Took', 'Vehicles', 'Visited', 'WrongReply', 'by_number', 'hold', 'nearest_first', 'read_arrivals', 'read_file', 'read_instance',
    'read_log', 'read_orders',
]
