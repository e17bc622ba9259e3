#!/usr/bin/env python3
from x25tools import x25lines, x25pad

x25lines.run(x25pad.main)
