#!/usr/bin/env python3
from x25tools import losses, x25lines

x25lines.run(losses.main)
