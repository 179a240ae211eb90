"""The parts of flexlab, one topic a module. It needs Python 3.11 and its standard library."""
