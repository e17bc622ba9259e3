#!/usr/bin/env python3
from x25tools import x25dump, x25lines

x25lines.run(x25dump.main)
