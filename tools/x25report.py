#!/usr/bin/env python3
from x25tools import x25lines, x25report

x25lines.run(x25report.main)
