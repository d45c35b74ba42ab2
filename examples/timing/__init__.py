"""What examples/speed.py is made of: graphs, feeds, what they are answered with, and one run."""
