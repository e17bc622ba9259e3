#!/usr/bin/env python3
from x25tools import x25pcap, x25lines

x25lines.run(x25pcap.main)
