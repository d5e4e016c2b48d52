"""VDA 5050 2.x: an adapter between a broker's vehicles and the core, a simulated vehicle, and a feed of orders.

    tools/py vda5050 INSTANCE --log run.log              the adapter
    tools/py vda5050-vehicle v3 --start 12,7 --world W   a simulated vehicle
    tools/py vda5050-orders FILE                         transport orders of a table, sent again until answered

Topics and fields are written from knowledge of the standard, not checked against its text. `broker` needs paho-mqtt, the rest the
standard library alone.
"""
