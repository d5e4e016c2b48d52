"""The messages of each topic as JSON schemas, from knowledge of VDA 5050, not checked against its text."""
