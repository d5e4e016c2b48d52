"""The program's texts: one reader each of map, points, script, log, arrivals and transcript; one kind of error, `Fault`."""
from .arrivals import read_arrivals
from .front import GONE
from .instance import BLOCKED, MOST_AGENTS, MOST_POINTS, MOST_SIDE, MOST_TASKS, PASSABLE, Cell, Instance, Point, read_instance, read_map, site_text
from .lines import Fault, Section, is_skipped, lines_of, number_of, read_file, sections_of, words_of
from .log import Reader, log_text, read_front, read_log
from .run import Front, Path, Run, Task, along, standing, steps_made
from .script import Order, is_command, orders_of, read_orders
from .transcript import Execution, passed, read_transcript

__all__ = [
    'BLOCKED', 'Cell', 'Fault', 'Front', 'GONE', 'Instance', 'MOST_AGENTS', 'MOST_POINTS', 'MOST_SIDE', 'MOST_TASKS', 'Order', 'PASSABLE', 'Path',
    'Point', 'Reader', 'Run', 'Section', 'Task', 'Execution', 'along', 'is_command', 'is_skipped', 'lines_of', 'log_text', 'number_of',
    'orders_of', 'passed', 'read_arrivals', 'read_file', 'read_front', 'read_instance', 'read_log', 'read_map', 'read_orders', 'read_transcript',
    'sections_of', 'site_text', 'standing', 'steps_made', 'words_of',
]
