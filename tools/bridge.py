#!/usr/bin/env python3
from x25tools import bridge, x25lines

x25lines.run(bridge.main)
