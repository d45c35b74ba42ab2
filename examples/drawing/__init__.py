"""What examples/draw.py is made of: the scenario, its answers, the layout and the drawing."""
