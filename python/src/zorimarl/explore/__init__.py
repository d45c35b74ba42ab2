"""Writes a scenario, a feed or a journal as one HTML page: the command `zorimarl-explore`."""
