#!/usr/bin/env python3
from x25tools import chart, x25lines

x25lines.run(chart.main)
