"""LIF files (VDMA's Layout Interchange Format, JSON): a layout of nodes, edges and stations, in metres, y upwards.

Written from knowledge of the format, not checked against its text. Here a node is a cell, named as the adapter of VDA 5050 names it, an
edge leads from a cell to a neighbour, and a station is a point that tasks stop at.
"""
from __future__ import annotations

import json
from dataclasses import dataclass

from ..json_texts import Json, read_json
from ..texts import MOST_SIDE, Cell, Fault, Instance
from ..vda5050.layout import Layout, node_name

NAME: Json = {'type': 'string', 'minLength': 1}
PLACE: Json = {'type': 'object', 'required': ['x', 'y'], 'properties': {'x': {'type': 'number'}, 'y': {'type': 'number'}}}
NODE: Json = {'type': 'object', 'required': ['nodeId', 'nodePosition'], 'properties': {'nodeId': NAME, 'nodePosition': PLACE}}
EDGE: Json = {'type': 'object', 'required': ['edgeId', 'startNodeId', 'endNodeId'], 'properties': {'edgeId': NAME, 'startNodeId': NAME, 'endNodeId': NAME}}
STATION: Json = {'type': 'object', 'required': ['stationId', 'interactionNodeIds'],
                 'properties': {'stationId': NAME, 'interactionNodeIds': {'type': 'array', 'minItems': 1, 'items': NAME}}}
FORM: Json = {
    'type': 'object', 'required': ['metaInformation', 'layouts'],
    'properties': {'metaInformation': {'type': 'object', 'required': ['lifVersion'], 'properties': {'lifVersion': NAME}},
                   'layouts': {'type': 'array', 'minItems': 1, 'items': {
                       'type': 'object', 'required': ['layoutId', 'nodes', 'edges', 'stations'],
                       'properties': {'layoutId': NAME, 'nodes': {'type': 'array', 'minItems': 1, 'items': NODE}, 'edges': {'type': 'array', 'items': EDGE},
                                      'stations': {'type': 'array', 'items': STATION}}}}}}


@dataclass
class Floor:
    """A layout as a grid: passable cells, row 0 the uppermost, and stations by name."""
    width: int
    height: int
    cells: set[Cell]
    stations: dict[str, Cell]


def text_of(instance: Instance, layout: Layout) -> str:
    """The layout of an instance."""
    cells = [(x, y) for y in range(instance.height) for x in range(instance.width) if instance.is_passable((x, y))]
    stations = {point.cell for point in instance.points if point.kind == 'station'}
    can = [{'actionType': kind, 'requirementType': 'CONDITIONAL', 'blockingType': 'HARD'} for kind in ('pick', 'drop')]

    def at(cell: Cell) -> Json:
        x, y = layout.metres(cell)
        return {'x': x, 'y': y}
    nodes = [{'nodeId': node_name(cell), 'mapId': layout.name, 'nodePosition': at(cell),
              'vehicleTypeNodeProperties': [{'vehicleTypeId': 'any', 'actions': can if cell in stations else []}]} for cell in cells]
    edges = [{'edgeId': f'{node_name(one)}-{node_name(other)}', 'startNodeId': node_name(one), 'endNodeId': node_name(other),
              'vehicleTypeEdgeProperties': [{'vehicleTypeId': 'any'}]} for one in cells for other in beside(one) if instance.is_passable(other)]
    points = [{'stationId': point.name, 'stationName': point.name, 'interactionNodeIds': [node_name(point.cell)], 'stationPosition': at(point.cell)}
              for point in instance.points if point.kind == 'station']
    return json.dumps({'metaInformation': {'projectIdentification': 'warehouse', 'creator': 'warehouse', 'lifVersion': '1.0.0'},
                       'layouts': [{'layoutId': layout.name, 'layoutVersion': '1', 'nodes': nodes, 'edges': edges, 'stations': points}]},
                      separators=(',', ':')) + '\n'


def beside(cell: Cell) -> tuple[Cell, ...]:
    x, y = cell
    return (x + 1, y), (x - 1, y), (x, y + 1), (x, y - 1)


def read_floor(name: str, data: bytes, side: float) -> Floor:
    """The first layout of a file as a grid of cells of that side. Raises Fault where it is none: nodes off the grid or at one place, an edge
    that leads to no neighbour or one way alone, neighbours with no edge between."""
    layout = read_json(name, data, FORM)['layouts'][0]
    places = places_of(name, layout, side)
    judge_edges(name, layout, places)
    stations: dict[str, Cell] = {}
    for station in layout['stations']:
        node = station['interactionNodeIds'][0]
        if node not in places or station['stationId'] in stations:
            raise Fault(f'station {station["stationId"]} stands twice, or its node {node} is none of the layout', name)
        stations[station['stationId']] = places[node]
    cells = set(places.values())
    return Floor(1 + max(x for x, _ in cells), 1 + max(y for _, y in cells), cells, stations)


def places_of(name: str, layout: Json, side: float) -> dict[str, Cell]:
    """The cell of each node: the leftmost is column 0, the uppermost row 0."""
    nodes = {node['nodeId']: node['nodePosition'] for node in layout['nodes']}
    if len(nodes) < len(layout['nodes']):
        raise Fault('two nodes have one nodeId', name)
    left, top = min(place['x'] for place in nodes.values()), max(place['y'] for place in nodes.values())
    places: dict[str, Cell] = {}
    for node, place in nodes.items():
        right, down = (place['x'] - left) / side, (top - place['y']) / side
        cell = round(right), round(down)
        if abs(right - cell[0]) > 0.1 or abs(down - cell[1]) > 0.1 or max(cell) >= MOST_SIDE:
            raise Fault(f'node {node} at {place["x"]:g}, {place["y"]:g} lies on no grid of {side:g} m, or too far off', name)
        places[node] = cell
    if len(set(places.values())) < len(places):
        raise Fault('two nodes lie in one cell', name)
    return places


def judge_edges(name: str, layout: Json, places: dict[str, Cell]) -> None:
    joined: set[tuple[Cell, Cell]] = set()
    for edge in layout['edges']:
        ends = [edge['startNodeId'], edge['endNodeId']]
        if not all(end in places for end in ends):
            raise Fault(f'edge {edge["edgeId"]} ends at a node that is none of the layout', name)
        one, other = places[ends[0]], places[ends[1]]
        if other not in beside(one):
            raise Fault(f'edge {edge["edgeId"]} leads to no neighbour on the grid', name)
        joined.add((one, other))
    cells = set(places.values())
    for one in cells:
        for other in beside(one):
            if other in cells and (one, other) not in joined:
                raise Fault(f'no edge leads from {node_name(one)} to its neighbour {node_name(other)} (columns and rows from above): '
                            'a grid has both', name)
