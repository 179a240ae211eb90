"""Files of other tools: FIBEX and ARXML as clusters of flexlab, and changed parameters back into them."""
