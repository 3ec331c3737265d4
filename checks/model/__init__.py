"""A model of the program that shares no code with it, written from the RFCs and from docs/; see checks/against-model."""
